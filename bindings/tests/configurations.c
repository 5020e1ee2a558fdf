/* configurations: which one makes an end, and what its numbers do. Ends with status 0, or says where an answer differs. */
#include "both_ends.h"

static ks_config config_of(uint32_t remembered) {
    ks_config config = {0};
    config.size = sizeof config;
    config.remembered = remembered;
    return config;
}

/* Neither end is made, the answer is this one, and no memory is asked for. */
static void neither(const ks_config *config, int32_t answer) {
    ks_seed seed = {1, 2, 3};
    allocated = 0;
    IS(ks_server_new(&server, config, &seed), answer);
    IS(ks_client_new(&client, &there, config, &seed), answer);
    IS(allocated, 0);
}

static void both(const ks_config *config) {
    begin_with(config, config);
    end();
}

static void each_field(void) {
    ks_config config = config_of(0);
    both(&config);
    config.size = 0;
    both(&config);
    config.size = 19;
    neither(&config, KS_BAD_SIZE);
    config.size = sizeof config + 4;
    neither(&config, KS_BAD_SIZE);
    config = config_of(0);
    for (uint32_t block = 16; block <= 1024; block *= 2) {
        config.block_size = block;
        both(&config);
        config.block_size = block + 1;
        neither(&config, KS_BAD_BLOCK_SIZE);
    }
    config.block_size = 8;
    neither(&config, KS_BAD_BLOCK_SIZE);
    config.block_size = 2048;
    neither(&config, KS_BAD_BLOCK_SIZE);
    config = config_of(0);
    config.body_limit = 1048576;
    both(&config);
    config.body_limit = 1048577;
    neither(&config, KS_BAD_BODY_LIMIT);
    config = config_of(1);
    both(&config);
    config.remembered = 1048576;
    both(&config);
    config.remembered = 1048577;
    neither(&config, KS_BAD_REMEMBERED);
    config.remembered = UINT32_MAX;
    neither(&config, KS_BAD_REMEMBERED);
    config = config_of(0);
    config.changes = 4194303;
    both(&config);
}

/* Versions begin after the base: of it a server alone is asked. */
static void base(void) {
    ks_config config = config_of(0);
    ks_seed seed = {1, 2, 3};
    uint64_t version;
    config.base = 1;
    IS(ks_server_new(&server, &config, &seed), KS_BAD_BASE);
    IS(ks_client_new(&client, &there, &config, &seed), KS_OK);
    config.base = (uint64_t)1 << 63;
    IS(ks_server_new(&server, &config, &seed), KS_BAD_BASE);
    config.base = ks_base(UINT64_MAX);
    IS(config.base == 0x7fffffffff000000u, 1);
    IS(ks_base(0), 0);
    IS(ks_base(1), 1 << 24);
    IS(ks_server_new(&server, &config, &seed), KS_OK);
    IS(ks_server_set(&server, 0, P("a"), -1, P("1"), &version), KS_OK);
    IS(version == config.base + 1, 1);
    ks_server_free(&server);
    ks_client_free(&client);
}

/* Of changes a server alone is asked. */
static void changes(void) {
    ks_config config = config_of(0);
    ks_seed seed = {1, 2, 3};
    ks_representation shown;
    uint64_t version;
    config.changes = 4194304;
    IS(ks_server_new(&server, &config, &seed), KS_BAD_CHANGES);
    IS(ks_client_new(&client, &there, &config, &seed), KS_OK);
    config.changes = 2;
    IS(ks_server_new(&server, &config, &seed), KS_OK);
    IS(ks_server_set(&server, 0, P("a"), -1, P("1"), &version), KS_OK);
    IS(ks_server_set(&server, 0, P("a"), -1, P("2"), &version), KS_OK);
    IS(version, 2);
    IS(ks_server_set(&server, 0, P("a"), -1, P("3"), &version), KS_SET_RATE_EXCEEDED);
    IS(ks_server_update(&server, 0, P("a"), -1, P("2"), &version), KS_OK);
    IS(ks_server_remove(&server, 0, P("a")), KS_SET_RATE_EXCEEDED);
    /* A refused configuration leaves the handle as it was, and so does refused memory. */
    config.changes = 4194304;
    IS(ks_server_new(&server, &config, &seed), KS_BAD_CHANGES);
    config.changes = 0;
    allocated = 0;
    refuse_at = 1;
    IS(ks_server_new(&server, &config, &seed), KS_NO_MEMORY);
    IS(ks_client_new(&client, &there, &config, &seed), KS_OK);
    refuse_at = -1;
    IS(ks_server_get(&server, P("a"), &shown, room, 1), KS_DONE);
    IS(room[0], '2');
    end();
}

static void handles(void) {
    uint64_t at;
    IS(ks_version(), KS_VERSION);
    IS(ks_server_tick(&server, 0, 0), KS_NOT_LIVE);
    IS(ks_client_due(&client, &at), KS_NOT_LIVE);
    begin();
    IS(ks_server_tick((ks_server *)&client, 0, 0), KS_NOT_LIVE);
    IS(ks_client_tick((ks_client *)&server, 0, 0), KS_NOT_LIVE);
    IS(ks_client_forget((ks_client *)&server, 0), KS_NOT_LIVE);
    IS(ks_server_due(&server, &at), KS_OK);
    end();
}

/* Whether a CON GET of this Message ID is answered (RFC 7252, section 4.2). */
static int32_t asks(uint32_t id) {
    uint8_t get[] = {0x40, 1, (uint8_t)(id >> 8), (uint8_t)id, 0xb1, 't'};
    ks_address to;
    size_t len;
    IS(ks_server_feed(&server, now, &here, get, sizeof get, word()), KS_OK);
    return ks_server_next_out(&server, &to, datagram, sizeof datagram, &len);
}

/* So many are answered before the first that isn't: each is remembered for 247 s, and a copy has its stored reply
 * meanwhile (RFC 7252, section 4.5). */
static void a_server_remembers(uint32_t remembered, uint32_t most) {
    ks_config config = config_of(remembered), usual = {0};
    begin_with(&config, &usual);
    for (uint32_t id = 0; id < most; id++) IS(asks(id), KS_DONE);
    IS(asks(most), KS_OK);
    IS(asks(0), KS_DONE);
    now = 247000;
    IS(asks(most), KS_OK);
    IS(asks(most - 1), KS_DONE);
    now++;
    IS(asks(most), KS_DONE);
    end();
}

/* What becomes of a second call whose separate response comes while the first one's is remembered (section 5.2.2). */
static void a_client_remembers(uint32_t remembered, uint8_t second) {
    ks_config config = config_of(remembered), usual = {0};
    ks_request put = {.format = 0, .accept = -1, .method = KS_PUT};
    uint64_t id;
    begin_with(&usual, &config);
    IS(ks_server_set_delay(&server, P("slow"), 100), KS_OK);
    IS(ks_client_call(&client, now, &put, P("slow"), P("1"), NONE, NONE, &id), KS_OK);
    IS(await().kind, KS_SUCCESS);
    IS(ks_client_call(&client, now, &put, P("slow"), P("2"), NONE, NONE, &id), KS_OK);
    IS(await().kind, second);
    end();
}

int main(void) {
    handles();
    each_field();
    changes();
    base();
    a_server_remembers(1, 1);
    a_server_remembers(2, 2);
    a_server_remembers(0, 4096);
    a_server_remembers(4096, 4096);
    a_server_remembers(5000, 5000);
    a_client_remembers(1, KS_NO_RESPONSE);
    a_client_remembers(2, KS_SUCCESS);
    a_client_remembers(0, KS_SUCCESS);
    IS(no_memory, 0);
    printf("each configuration does what it says\n");
    return 0;
}
