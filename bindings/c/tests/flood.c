/* Inserts keys that were chosen to have one FNV-1a hash. They make a table of yoyoash_open slow. A store with a seed inserts them in
   about the time of other keys. */
#include <stdio.h>
#include <stdlib.h>
#include <time.h>
#include <yoyoash.h>

/* Two blocks of text lead from one hash to the next; PARTS such pairs give KEYS texts of one hash. SLOTS is the size of a table of hashes. */
enum { PARTS = 13, BLOCK = 8, KEYS = 1 << PARTS, SLOTS = 1 << 20 };

static char pairs[PARTS][2][BLOCK + 1];

static uint32_t hash_bytes(uint32_t hash, const void *bytes, size_t count) {
    for (size_t place = 0; place < count; place++) hash = (hash ^ ((const uint8_t *)bytes)[place]) * 16777619u;
    return hash;
}

/* Writes a block of letters, which all depend on the number. */
static void write_block(uint32_t number, char *block) {
    uint64_t mixed = number * 11400714819323198485ull >> 24;
    for (int place = 0; place < BLOCK; place++, mixed /= 26) block[place] = 'a' + mixed % 26;
}

/* Finds two blocks that lead from a hash to the same hash, which it returns. */
static uint32_t find_pair(uint32_t start, char pair[2][BLOCK + 1]) {
    static uint32_t numbers[SLOTS];
    memset(numbers, 0, sizeof numbers);
    for (uint32_t number = 1;; number++) {
        char block[BLOCK + 1] = {0};
        write_block(number, block);
        uint32_t hash = hash_bytes(start, block, BLOCK);
        uint32_t *slot = &numbers[hash % SLOTS];
        write_block(*slot, pair[0]);
        if (*slot && hash_bytes(start, pair[0], BLOCK) == hash) {
            memcpy(pair[1], block, BLOCK);
            return hash;
        }
        *slot = number;
    }
}

/* Finds all pairs. A binary has the byte 7 and eight bytes of its length before its bytes. */
static void find_pairs(void) {
    static const uint8_t head[] = {7, 0, 0, 0, 0, 0, 0, 0, PARTS * BLOCK};
    uint32_t hash = hash_bytes(2166136261u, head, sizeof head);
    for (int part = 0; part < PARTS; part++) hash = find_pair(hash, pairs[part]);
}

/* Writes the insertion of a key: the pairs choose a block by a bit of the number, and other keys have it as digits. */
static int write_call(char *call, size_t size, int number, int is_chosen) {
    char key[PARTS * BLOCK + 1];
    if (!is_chosen) snprintf(key, sizeof key, "%0*d", PARTS * BLOCK, number);
    for (int part = 0; part < PARTS && is_chosen; part++) memcpy(key + part * BLOCK, pairs[part][number >> part & 1], BLOCK + 1);
    return snprintf(call, size, "{insert,t,{<<\"%s\">>,%d}}", key, number);
}

static void check(int holds, const char *what) {
    if (holds) return;
    fprintf(stderr, "flood: %s\n", what);
    exit(1);
}

/* Returns the processor time of inserting all keys into a store, which it closes. */
static clock_t time_keys(yoyoash_store *store, int is_chosen) {
    char call[256], reply[64];
    size_t len;
    check(yoyoash_spawn(store, 0) == YOYOASH_VALUE, "spawn");
    check(yoyoash_call_text(store, 0, "{new,t,[named_table]}", reply, sizeof reply, &len) == YOYOASH_VALUE, "new");
    clock_t began = clock();
    for (int number = 0; number < KEYS; number++) {
        int call_len = write_call(call, sizeof call, number, is_chosen);
        check(yoyoash_call(store, 0, call, call_len, reply, sizeof reply, &len) == YOYOASH_VALUE, call);
    }
    clock_t took = clock() - began;
    check(yoyoash_call_text(store, 0, "{info,t,size}", reply, sizeof reply, &len) == YOYOASH_VALUE, "info");
    reply[len] = 0;
    check(atoi(reply) == KEYS, "keys are lost");
    yoyoash_close(store);
    return took;
}

static clock_t time_fixed(int is_chosen) {
    yoyoash_store store = {0};
    check(yoyoash_open(&store, YOYOASH_MAX_PROCESSES, YOYOASH_MAX_TABLES, YOYOASH_MAX_OBJECTS) == YOYOASH_VALUE, "open");
    return time_keys(&store, is_chosen);
}

static clock_t time_seeded(int is_chosen, uint64_t seed) {
    yoyoash_store store = {0};
    check(yoyoash_open_with_seed(&store, YOYOASH_MAX_PROCESSES, YOYOASH_MAX_TABLES, YOYOASH_MAX_OBJECTS, seed) == YOYOASH_VALUE, "open with a seed");
    return time_keys(&store, is_chosen);
}

int main(void) {
    find_pairs();
    clock_t ordinary = time_fixed(0);
    check(time_fixed(1) > 10 * ordinary, "the chosen keys do not slow a table with the fixed hash");
    check(time_seeded(0, 1) < 5 * ordinary, "a seed slows ordinary keys");
    check(time_seeded(1, 1) < 5 * ordinary && time_seeded(1, UINT64_MAX) < 5 * ordinary, "the chosen keys slow a table with a seed");
    return 0;
}
