/* captures FILE: the bytes of one packet of ks_pcap.h, as they were written by hand; then both ends talk, and some of it is
 * lost. Each datagram goes to the capture FILE, and its Message ID and code to standard output, as ks_peek reads them. */
#include "both_ends.h"
#include "ks_pcap.h"

#define ROUNDS 20000
#define BEGAN_US 1700000000000000u

static FILE *file;
static const ks_address mine = {{10, 0, 0, 9}, 40001}, theirs = {{10, 0, 0, 1}, 5683};

static void by_hand(void) {
    static const uint8_t wants[KS_PCAP_PACKET] = {
        0, 0xf1, 0x53, 0x65, 1, 0, 0, 0, 32, 0, 0, 0, 32, 0, 0, 0,                  /* 1,700,000,000 s and 1 us; 32 bytes */
        0x45, 0, 0, 32, 0, 0, 0x40, 0, 64, 17, 0x26, 0xc4, 10, 0, 0, 9, 10, 0, 0, 1, /* IPv4, UDP, its checksum */
        0x9c, 0x41, 0x16, 0x33, 0, 12, 0, 0};
    uint8_t got[KS_PCAP_PACKET];
    size_t kept;
    ks_pcap_packet(got, BEGAN_US + 1, &mine, &theirs, 4, &kept);
    IS(kept, 4);
    IS(memcmp(got, wants, sizeof wants), 0);
    ks_pcap_packet(got, BEGAN_US, &mine, &theirs, 70000, &kept);
    IS(kept, KS_PCAP_MOST);
}

static void note(const ks_address *from, const ks_address *to, size_t len) {
    uint8_t head[KS_PCAP_PACKET];
    ks_message m;
    size_t kept;
    ks_pcap_packet(head, BEGAN_US + now * 1000, from, to, len, &kept);
    IS(fwrite(head, sizeof head, 1, file), 1);
    IS(fwrite(datagram, kept, 1, file), 1);
    IS(ks_peek(datagram, len, &m, path_room, sizeof path_room), KS_OK);
    printf("%u\t%u\n", m.id, m.code);
}

static void ask(void) {
    static uint8_t body[700];
    ks_request what = {.format = word() % 3 ? 0 : 60, .accept = KS_NO_FORMAT, .method = (uint8_t)(KS_GET + word() % 4),
                       .if_none_match = word() % 5 == 0};
    bool has_body = what.method == KS_PUT || what.method == KS_POST;
    char path[] = "p/0";
    uint64_t id;
    path[2] = (char)('0' + word() % 5);
    int32_t answer = ks_client_call(&client, now, &what, path, 3, body, has_body ? word() % 700 : 0, NONE, NONE, &id);
    IS(answer == KS_OK || answer == KS_CALL_QUEUE_FULL, 1);
}

static void talk(void) {
    ks_address to;
    ks_report r;
    size_t len;
    while (ks_client_tick(&client, now, word()) == KS_DONE) {}
    while (ks_server_tick(&server, now, word()) == KS_DONE) {}
    while (ks_client_next_out(&client, &to, datagram, sizeof datagram, &len) == KS_DONE) {
        note(&mine, &theirs, len);
        if (word() % 5) IS(ks_server_feed(&server, now, &here, datagram, len, 0), KS_OK);
    }
    while (ks_server_next_out(&server, &to, datagram, sizeof datagram, &len) == KS_DONE) {
        note(&theirs, &mine, len);
        if (word() % 5) IS(ks_client_feed(&client, now, &there, datagram, len, word()), KS_OK);
    }
    while (ks_client_next_report(&client, &r, room, sizeof room) == KS_DONE) {}
}

int main(int argc, char **argv) {
    ks_config config = {.size = sizeof config, .block_size = 64};
    uint8_t head[KS_PCAP_HEAD];
    uint64_t id, version;
    by_hand();
    if (argc != 2 || (file = fopen(argv[1], "wb")) == NULL) return 2;
    ks_pcap_head(head);
    IS(fwrite(head, sizeof head, 1, file), 1);
    begin_with(&config, &config);
    IS(ks_client_observe(&client, now, P("o"), &id), KS_OK);
    for (int i = 0; i < ROUNDS; i++, now += 200) {
        if (i % 7 == 0) ask();
        if (i % 20 == 0) IS(ks_server_set(&server, now, P("o"), 0, room, word() % 50, &version), KS_OK);
        talk();
    }
    end();
    return fclose(file);
}
