/* buckets: the hash of ks_bucket.h against another's; what a bucket gives, and when; then a flood from one address beside one
 * honest client: with buckets each request of its is answered, and without them it starves. Ends with status 0, or says what
 * differs. */
#include "both_ends.h"
#include "ks_bucket.h"

#define ROWS 1024
#define SECONDS 1000
#define FLOOD_MS 5              /* between two datagrams of the flood */

/* Of keys that are 0, as Python's hash of bytes has it with PYTHONHASHSEED=0. */
static void hashes(void) {
    ks_bucket b = {.key0 = 0};
    IS(ks_bucket_hash(&b, P("a")) == 0x407448d2b89b1813u, 1);
    IS(ks_bucket_hash(&b, P("10.0.0.9")) == 0xc930616e89747e7au, 1);
    IS(ks_bucket_hash(&b, P("192.0.2.255:5683")) == 0x0ac740e4023e642bu, 1);
}

static void a_bucket(void) {
    ks_bucket_row rows[1];
    ks_bucket b;
    ks_bucket_init(&b, rows, 1, 2, 3, 1, 2);
    for (int i = 0; i < 3; i++) IS(ks_bucket_take(&b, 7, P("x")), 1);
    IS(ks_bucket_take(&b, 7, P("x")), 0);
    IS(ks_bucket_take(&b, 506, P("x")), 0);
    IS(ks_bucket_take(&b, 507, P("x")), 1);
    /* A clock that jumps back brings none, and takes none. */
    IS(ks_bucket_take(&b, 0, P("x")), 0);
    IS(ks_bucket_take(&b, 1006, P("x")), 0);
    IS(ks_bucket_take(&b, 1007, P("x")), 1);
    IS(b.dropped, 4);
    /* However long nothing comes, it holds no more than its burst. */
    for (int i = 0; i < 3; i++) IS(ks_bucket_take(&b, UINT64_MAX, P("x")), 1);
    IS(ks_bucket_take(&b, UINT64_MAX, P("x")), 0);
}

/* How many of the honest requests, one a second, are answered. */
static int served(bool with_buckets) {
    static ks_bucket_row rows[ROWS];
    static const ks_address honest = {{10, 0, 0, 1}, 5683};
    ks_bucket bucket;
    int answers = 0;
    begin();
    ks_bucket_init(&bucket, rows, ROWS, 4, 64, word(), word());
    for (; now < SECONDS * 1000; now += FLOOD_MS) {
        uint8_t get[] = {0x40, 1, (uint8_t)(now / FLOOD_MS >> 8), (uint8_t)(now / FLOOD_MS), 0xb1, 't'};
        bool is_honest = now % 1000 == 0;
        ks_address from = {{66, 0, 0, 1}, (uint16_t)(1 + word() % 256)}, to;
        size_t len;
        if (is_honest) from = honest;
        if (with_buckets && !ks_bucket_take(&bucket, now, from.ip, sizeof from.ip)) continue;
        IS(ks_server_feed(&server, now, &from, get, sizeof get, 0), KS_OK);
        while (ks_server_next_out(&server, &to, datagram, sizeof datagram, &len) == KS_DONE) answers += is_honest;
    }
    end();
    return answers;
}

int main(void) {
    hashes();
    a_bucket();
    int with_buckets = served(true), without = served(false);
    printf("200 datagrams a second from one address: of %d requests of another %d are answered with buckets, %d without\n",
           SECONDS, with_buckets, without);
    IS(with_buckets, SECONDS);
    IS(without < SECONDS / 2, 1);
    return 0;
}
