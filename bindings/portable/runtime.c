/* ---- What the translated code has of its host ----
 *
 * A module does nothing outside its memory: an access there is a trap, as is what its source never does. A trap ends
 * the program. */

void wasm_rt_init(void) {}

bool wasm_rt_is_initialized(void) { return true; }

void wasm_rt_free(void) {}

uint32_t wasm_rt_register_func_type(uint32_t params, uint32_t results, ...) {
    (void)params, (void)results;
    return 0; /* there is no table of functions */
}

void wasm_rt_trap(wasm_rt_trap_t why) {
    (void)why;
    abort();
}

void wasm_rt_allocate_memory(wasm_rt_memory_t *m, uint32_t pages, uint32_t max_pages) {
    m->data = calloc(pages, 65536);
    m->pages = pages;
    m->max_pages = max_pages;
    m->size = pages * 65536;
    if (m->data == NULL) m->size = 0;
}

uint32_t wasm_rt_grow_memory(wasm_rt_memory_t *m, uint32_t pages) {
    uint32_t old_pages = m->pages, old_size = m->size;
    if (pages == 0) return old_pages;
    if (pages > 65535 - old_pages || old_pages + pages > m->max_pages) return UINT32_MAX;
    uint32_t size = (old_pages + pages) * 65536;
    uint8_t *data = realloc(m->data, size);
    if (data == NULL) return UINT32_MAX;
#if WABT_BIG_ENDIAN
    memmove(data + size - old_size, data, old_size);
    memset(data, 0, size - old_size);
#else
    memset(data + old_size, 0, size - old_size);
#endif
    m->data = data;
    m->pages = old_pages + pages;
    m->size = size;
    return old_pages;
}

void wasm_rt_free_memory(wasm_rt_memory_t *m) { free(m->data); }
