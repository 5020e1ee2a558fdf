/* Tries knifesilver_easy.h: each call of it, between both ends in one process, and the texts of codes and reports. */
#include "knifesilver_easy.h"
#include "both_ends.h"

_Static_assert(KS_CODE(2, 5) == 0x45 && KS_CODE(2, 05) == 0x45, "2.05 (RFC 7252, section 3)");
_Static_assert(KS_CODE(4, 8) == 0x88 && KS_CODE(4, 08) == 0x88, "4.08 (RFC 7959, section 2.9.2)");
_Static_assert(KS_CODE(4, 9) == 0x89 && KS_CODE(4, 09) == 0x89, "4.09 (RFC 8132, section 3.4)");
_Static_assert(KS_CODE(4, 10) == 0x8a && KS_CODE(0, 0) == 0 && KS_CODE(7, 31) == 0xff, "two digits, none, all bits");

static void is_text(const char *found, const char *wanted) {
    if (strcmp(found, wanted) == 0) return;
    printf("%s, not %s\n", found, wanted);
    exit(1);
}

static void of_codes(void) {
    char text[KS_CODE_ROOM];
    is_text(ks_code_text(KS_CODE(2, 05), text), "2.05");
    is_text(ks_code_text(KS_CODE(4, 15), text), "4.15");
    is_text(ks_code_text(0, text), "0.00");
    is_text(ks_code_text(0xff, text), "7.31");
    IS(ks_code(4, 4), KS_CODE(4, 04));
}

static void of_names(void) {
    is_text(ks_report_name(KS_TIMEOUT), "TIMEOUT");
    is_text(ks_report_name(KS_BODY), "BODY");
    is_text(ks_report_name(KS_NO_IDS), "NO_IDS");
    is_text(ks_report_name(0), "?");
    is_text(ks_report_name(KS_NO_IDS + 1), "?");
}

/* The last report of that call, which is of that kind and code. */
static void ends_as(uint64_t id, uint8_t kind, uint8_t code) {
    ks_report report = await();
    IS(report.id, id);
    IS(report.kind, kind);
    if (code != 0) IS(report.code, code);
}

static void of_calls(void) {
    uint64_t id, version;
    begin();
    IS(ks_set_text(&server, now, "temperature", "22.3 C", &version), KS_OK);
    IS(version, 1);
    IS(ks_update_text(&server, now, "temperature", "22.3 C", &version), KS_OK);
    IS(ks_update_text(&server, now, "temperature", "22.4 C", &version), KS_DONE);
    ks_request get = {.format = KS_NO_FORMAT, .accept = KS_NO_FORMAT, .method = KS_GET};
    IS(ks_client_call(&client, now, &get, P("temperature"), "", 0, NONE, NONE, &id), KS_OK);
    ends_as(id, KS_BODY, 0);
    IS(ks_client_get(&client, now, "temperature", &id), KS_OK);
    ends_as(id, KS_BODY, 0);
    IS(memcmp(room, "22.4 C", 6), 0);
    IS(ks_client_put_text(&client, now, "a/b", "new", &id), KS_OK);
    ends_as(id, KS_SUCCESS, KS_CODE(2, 01));
    IS(ks_client_put(&client, now, "a/b", KS_NO_FORMAT, "old", 3, &id), KS_OK);
    ends_as(id, KS_SUCCESS, KS_CODE(2, 04));
    IS(ks_client_post(&client, now, "a/b", KS_NO_FORMAT, "er", 2, &id), KS_OK);
    ends_as(id, KS_SUCCESS, KS_CODE(2, 04));
    IS(ks_client_get(&client, now, "a/b", &id), KS_OK);
    ends_as(id, KS_BODY, 0);
    IS(memcmp(room, "older", 5), 0);
    IS(ks_client_delete(&client, now, "a/b", &id), KS_OK);
    ends_as(id, KS_SUCCESS, KS_CODE(2, 02));
    IS(ks_client_get(&client, now, "a/b", &id), KS_OK);
    ends_as(id, KS_FAILED, KS_CODE(4, 04));
    IS(ks_client_watch(&client, now, "temperature", &id), KS_OK);
    ends_as(id, KS_VALUE, 0);
    IS(ks_remove(&server, now, "temperature"), KS_DONE);
    IS(ks_remove(&server, now, "temperature"), KS_OK);
    ends_as(id, KS_ENDED, KS_CODE(4, 04));
    IS(ks_client_get(&client, now, "a/b/c/d/e/f/g/h/i/j/k/l/m/n/o/p/q", &id), KS_BAD_PATH);
    end();
}

int main(void) {
    of_codes();
    of_names();
    of_calls();
    printf("knifesilver_easy.h: passed\n");
    return 0;
}
