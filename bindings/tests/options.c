/* The options of messages: written by hand, and read one by one or each in turn. Status 1 at the first thing that is not as it
 * should be. */
#include "knifesilver_exchange.h"
#include <stdio.h>
#include <stdlib.h>

#define WANT(holds) \
    do { \
        if (!(holds)) return fprintf(stderr, "%s:%d: not so: %s\n", __FILE__, __LINE__, #holds), 1; \
    } while (0)

/* Options, by hand after RFC 7252, section 3.1. */
static int options(void) {
    static const uint16_t known[] = {11, 15};
    static const uint8_t written[] = {0x40, 0x45, 0, 0, 0xc1, 40, 0x21, 5, 0xe0, 0x06, 0xe6};
    uint8_t value[8];
    ks_draft draft;
    size_t place = 0, len;
    uint16_t number;
    ks_draft_begin(&draft, 0x45);
    WANT(ks_draft_uint(&draft, 12, 40) == KS_OK && ks_draft_uint(&draft, 14, 5) == KS_OK);
    WANT(ks_draft_uint(&draft, 12, 0) == KS_OPTION_ORDER);
    WANT(ks_draft_option(&draft, 2049, "", 0) == KS_OK);
    WANT(draft.len == sizeof written && memcmp(draft.bytes, written, sizeof written) == 0);
    WANT(ks_unknown_critical(draft.bytes, draft.len, known, 2, &number) == KS_DONE && number == 2049);
    WANT(ks_next_option(draft.bytes, draft.len, &place, &number, value, 0, &len) == KS_SMALL_ROOM && place == 0 && len == 1);
    WANT(ks_next_option(draft.bytes, draft.len, &place, &number, value, sizeof value, &len) == KS_DONE && value[0] == 40);
    WANT(ks_next_option(draft.bytes, draft.len, &place, &number, value, sizeof value, &len) == KS_DONE && number == 14);
    WANT(ks_next_option(draft.bytes, draft.len, &place, &number, value, sizeof value, &len) == KS_DONE && number == 2049);
    WANT(ks_next_option(draft.bytes, draft.len, &place, &number, value, sizeof value, &len) == KS_OK);
    return 0;
}

static uint64_t drawn = 88172645463325252u;

static uint64_t draw(uint64_t most) {
    drawn ^= drawn << 13;
    drawn ^= drawn >> 7;
    drawn ^= drawn << 17;
    return drawn % most;
}

/* Whether the option lies in the datagram. */
static bool lies_in(const ks_option *option, size_t len) {
    return option->value_at <= len && option->value_len <= len - option->value_at;
}

/* Of 100,000 datagrams, most of them messages, a reading tells what ks_next_option tells, its end is before the payload, and
 * one whose fields are any is told options that lie in the datagram, or is refused. */
static int readings(void) {
    unsigned messages = 0, told = 0, refused = 0, astray = 0;
    for (int n = 0; n < 100000; n++) {
        uint8_t *datagram = malloc(64), value[64], path[256];
        size_t len = 4 + draw(60), place = 0, value_len;
        uint16_t number;
        ks_message shown = {0};
        ks_options reading = {1, 2, 3};
        ks_option option;
        for (size_t i = 0; i < len; i++) datagram[i] = (uint8_t)(draw(3) ? draw(256) & 0x33 : draw(256));
        datagram[0] = (uint8_t)(0x40 | draw(4));
        datagram[1] = KS_GET;
        datagram = realloc(datagram, len);
        bool is_message = ks_peek(datagram, len, &shown, (char *)path, sizeof path) == KS_OK;
        WANT(ks_options_begin(datagram, len, &reading) == (is_message ? KS_OK : KS_BAD_ARGUMENT));
        WANT(is_message || (reading.at == 0 && reading.end == 0 && reading.number == 0));
        size_t marked = shown.payload_len > 0 ? 1 + shown.payload_len : 0;
        WANT(!is_message || (reading.at == 4u + (datagram[0] & 15) && reading.end == len - marked));
        while (is_message && ks_next_option(datagram, len, &place, &number, value, sizeof value, &value_len) == KS_DONE) {
            WANT(ks_options_next(datagram, len, &reading, &option) == KS_DONE);
            WANT(option.number == number && option.value_len == value_len && lies_in(&option, len));
            WANT(memcmp(datagram + option.value_at, value, value_len) == 0);
            told++;
        }
        WANT(ks_options_next(datagram, len, &reading, &option) == KS_OK);
        WANT(ks_options_next(datagram, len, &reading, &option) == KS_OK);
        reading = (ks_options){draw(70), draw(16) ? draw(70) : SIZE_MAX, (uint16_t)draw(65536)};
        const ks_options any = reading;
        int32_t answer = ks_options_next(datagram, len, &reading, &option);
        if (answer == KS_DONE) WANT(lies_in(&option, any.end) && any.end <= len && reading.at > any.at && reading.end == any.end);
        if (answer == KS_OK) WANT(any.at == any.end && any.end <= len);
        if (answer != KS_DONE) WANT(reading.at == any.at && reading.end == any.end && reading.number == any.number);
        WANT(answer == KS_DONE || answer == KS_OK || answer == KS_BAD_ARGUMENT);
        WANT(answer == KS_BAD_ARGUMENT || (any.at <= any.end && any.end <= len));
        astray += answer == KS_BAD_ARGUMENT;
        refused += !is_message;
        messages += is_message;
        free(datagram);
    }
    WANT(messages > 10000 && told > 50000 && refused > 10000 && astray > 10000);
    return 0;
}

/* Readings that are refused, a row each: cut off inside an option, a reserved delta, a reserved length, a number above 65,535,
 * past the end of the datagram, an end before the place; and one of another datagram. */
static int strays(void) {
    static const uint8_t bytes[] = {0x40, 1, 0, 1, 0xb3, 'a', 'b', 'c', 0xf0, 0x0f, 0xe0, 0xff, 0xff, 0x12};
    static const struct { ks_options at; int32_t answer; } rows[] = {
        {{4, 8, 0}, KS_DONE}, {{8, 8, 0}, KS_OK}, {{14, 14, 0}, KS_OK}, {{0, 0, 7}, KS_OK},
        {{4, 7, 0}, KS_BAD_ARGUMENT}, {{8, 9, 0}, KS_BAD_ARGUMENT}, {{9, 10, 0}, KS_BAD_ARGUMENT},
        {{10, 13, 0}, KS_BAD_ARGUMENT}, {{10, 12, 0}, KS_BAD_ARGUMENT}, {{13, 14, 0}, KS_BAD_ARGUMENT},
        {{4, 15, 0}, KS_BAD_ARGUMENT}, {{15, 15, 0}, KS_BAD_ARGUMENT}, {{8, 4, 0}, KS_BAD_ARGUMENT},
        {{SIZE_MAX, SIZE_MAX, 0}, KS_BAD_ARGUMENT}, {{4, 8, 65525}, KS_BAD_ARGUMENT}, {{4, 8, 65524}, KS_DONE},
    };
    ks_options reading;
    ks_option option;
    for (size_t n = 0; n < sizeof rows / sizeof *rows; n++) {
        reading = rows[n].at;
        WANT(ks_options_next(bytes, sizeof bytes, &reading, &option) == rows[n].answer);
        if (rows[n].answer == KS_DONE)
            WANT(option.number == rows[n].at.number + 11 && option.value_at == 5 && option.value_len == 3 && reading.at == 8);
    }
    reading = (ks_options){4, 8, 0};
    WANT(ks_options_next(bytes, 7, &reading, &option) == KS_BAD_ARGUMENT);
    WANT(ks_options_begin(bytes, 3, &reading) == KS_BAD_ARGUMENT && reading.at == 0 && reading.end == 0);
    return 0;
}

/* 65,507 bytes of options, of which each has its one byte, are read in one pass. */
static int longest(void) {
    static uint8_t datagram[65507] = {0x40, KS_GET};
    size_t told = 0;
    ks_options reading;
    ks_option option;
    WANT(ks_options_begin(datagram, sizeof datagram, &reading) == KS_OK);
    while (ks_options_next(datagram, sizeof datagram, &reading, &option) == KS_DONE) told++;
    WANT(told == sizeof datagram - 4);
    return 0;
}

int main(void) {
    return options() || readings() || strays() || longest();
}
