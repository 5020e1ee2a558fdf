/* ---- Names for peers: a table has an instance of its own, as an end has ---- */

void ks_names_free(ks_names *h) { handle_free(&h->handle); }

int32_t ks_names_new(ks_names *h, uint32_t places, bool this_network, const ks_seed *seed) {
    loans l = {.e = end_new()};
    if (l.e == NULL) return KS_NO_MEMORY;
    u32 s = keep(&l, lent_seed(l.e, seed));
    int32_t answer = KS_NO_MEMORY;
    if (!l.lacks) answer = (int32_t)Z_knifesilverZ_ks_names_new(MODULE, HANDLE, places, this_network, s);
    give_back(&l);
    return made(&h->handle, l.e, answer);
}

int32_t ks_names_fed(ks_names *h, uint64_t now, const void *key, size_t key_len, ks_address *name) {
    loans l = {.e = begin(&h->handle)};
    if (l.e == NULL) return KS_NOT_LIVE;
    u32 k = keep(&l, lent(l.e, key, key_len)), n = keep(&l, take(l.e, 8));
    int32_t answer = l.lacks ? KS_NO_MEMORY : (int32_t)Z_knifesilverZ_ks_names_fed(MODULE, HANDLE, now, k, key_len, n);
    if (answer == KS_OK) get_address(l.e, n, name);
    give_back(&l);
    leave(&h->handle, l.e);
    return answer;
}

int32_t ks_names_of(ks_names *h, const void *key, size_t key_len, ks_address *name) {
    loans l = {.e = begin(&h->handle)};
    if (l.e == NULL) return KS_NOT_LIVE;
    u32 k = keep(&l, lent(l.e, key, key_len)), n = keep(&l, take(l.e, 8));
    int32_t answer = l.lacks ? KS_NO_MEMORY : (int32_t)Z_knifesilverZ_ks_names_of(MODULE, HANDLE, k, key_len, n);
    if (answer == KS_DONE) get_address(l.e, n, name);
    give_back(&l);
    leave(&h->handle, l.e);
    return answer;
}

/* What the module wrote of a key, where there is one: its length, and its bytes. */
static int32_t told_key(loans *l, const ks_handle *h, int32_t answer, void *room, size_t *len) {
    if (answer == KS_DONE) {
        *len = (size_t)get_number(l->e, l->at[2], 8);
        get(l->e, l->at[1], room, (u32)*len);
    }
    give_back(l);
    leave(h, l->e);
    return answer;
}

/* What such a call is lent: a name, room for a key, and where its length goes. */
static void lend_for_key(loans *l, const ks_address *name, u64 room_len) {
    keep(l, lent_address(l->e, name));
    keep(l, lent_room(l->e, room_len));
    keep(l, take(l->e, 8));
}

int32_t ks_names_sent(ks_names *h, uint64_t now, const ks_address *name, void *room, size_t room_len, size_t *len) {
    loans l = {.e = begin(&h->handle)};
    if (l.e == NULL) return KS_NOT_LIVE;
    u64 most = room_len < KS_KEY_ROOM ? room_len : KS_KEY_ROOM;
    lend_for_key(&l, name, most);
    const u32 *at = l.at;
    int32_t answer = KS_NO_MEMORY;
    if (!l.lacks)
        answer = (int32_t)Z_knifesilverZ_ks_names_sent(MODULE, HANDLE, now, at[0], at[1], most, at[2]);
    return told_key(&l, &h->handle, answer, room, len);
}

int32_t ks_names_key(ks_names *h, const ks_address *name, void *room, size_t room_len, size_t *len) {
    loans l = {.e = begin(&h->handle)};
    if (l.e == NULL) return KS_NOT_LIVE;
    u64 most = room_len < KS_KEY_ROOM ? room_len : KS_KEY_ROOM;
    lend_for_key(&l, name, most);
    const u32 *at = l.at;
    int32_t answer = KS_NO_MEMORY;
    if (!l.lacks) answer = (int32_t)Z_knifesilverZ_ks_names_key(MODULE, HANDLE, at[0], at[1], most, at[2]);
    return told_key(&l, &h->handle, answer, room, len);
}

int32_t ks_names_hold(ks_names *h, const ks_address *name) {
    loans l = {.e = begin(&h->handle)};
    if (l.e == NULL) return KS_NOT_LIVE;
    u32 a = keep(&l, lent_address(l.e, name));
    int32_t answer = l.lacks ? KS_NO_MEMORY : (int32_t)Z_knifesilverZ_ks_names_hold(MODULE, HANDLE, a);
    give_back(&l);
    leave(&h->handle, l.e);
    return answer;
}

int32_t ks_names_release(ks_names *h, uint64_t now, const ks_address *name) {
    loans l = {.e = begin(&h->handle)};
    if (l.e == NULL) return KS_NOT_LIVE;
    u32 a = keep(&l, lent_address(l.e, name));
    int32_t answer = l.lacks ? KS_NO_MEMORY : (int32_t)Z_knifesilverZ_ks_names_release(MODULE, HANDLE, now, a);
    give_back(&l);
    leave(&h->handle, l.e);
    return answer;
}

int32_t ks_names_retire(ks_names *h, const ks_address *name) {
    loans l = {.e = begin(&h->handle)};
    if (l.e == NULL) return KS_NOT_LIVE;
    u32 a = keep(&l, lent_address(l.e, name));
    int32_t answer = l.lacks ? KS_NO_MEMORY : (int32_t)Z_knifesilverZ_ks_names_retire(MODULE, HANDLE, a);
    give_back(&l);
    leave(&h->handle, l.e);
    return answer;
}

int32_t ks_names_load(ks_names *h, uint64_t *taken) {
    loans l = {.e = begin(&h->handle)};
    if (l.e == NULL) return KS_NOT_LIVE;
    u32 n = keep(&l, take(l.e, 8));
    int32_t answer = l.lacks ? KS_NO_MEMORY : (int32_t)Z_knifesilverZ_ks_names_load(MODULE, HANDLE, n);
    if (answer == KS_OK) *taken = get_number(l.e, n, 8);
    give_back(&l);
    leave(&h->handle, l.e);
    return answer;
}
