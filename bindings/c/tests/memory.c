/* Counts the memory that a store takes. A store gives back all that it took when it is closed, and when another replaces it; a
   table does so when it is deleted. After a call that adds many objects, the next calls make the table grow. A table of many objects
   takes few bytes for each, and gives back what it took to grow. An object that goes leaves no block, and a long reply few bytes. */
#include <errno.h>
#include <malloc.h>
#include <stdio.h>
#include <stdlib.h>
#include <yoyoash.h>

/* The last number is the fewest bytes for each object by which a table grows. */
enum { ROUNDS = 1000, OBJECTS = 3000, CALLS = 2000, BYTES = 8 };
/* The number of objects of a large table, and three numbers of bytes for each: the most that it takes (115 measured, 2026-12-01), the
   fewest that it gives back once it has grown (2.6 measured), and the most by which it takes more if all are deleted and inserted
   again (none measured). */
enum { MANY = 100000, MOST = 150, SPARE = 1, MORE = 1 };
/* The bytes of a long reply, and the most bytes and blocks that stay once it, or objects, are gone. */
enum { LONG = 1000000, KEPT_BYTES = 2 * 65536, KEPT_BLOCKS = 20 };
/* A value with a block of its own, and calls that remove the value of a key, or all values. */
#define VALUE "\"a text that has memory of its own\""
static const char *const REMOVALS[] = {"{delete,t,%d}", "{delete_object,t,{%d," VALUE "}}", "{take,t,%d}", "{insert,t,{%d,0}}",
    "{update_element,t,%d,{2,0}}", "{match_delete,t,{%d,'_'}}", "{delete_all_objects,t}", "{match_delete,t,'_'}",
    "{select_delete,t,[{'_',[],[true]}]}"};
extern void *__libc_malloc(size_t), *__libc_calloc(size_t, size_t), *__libc_realloc(void *, size_t), *__libc_memalign(size_t, size_t);
extern void __libc_free(void *);

/* The number of blocks that are allocated and not freed, and of their bytes. */
static long blocks, bytes;

static void *hold(void *block) {
    blocks += block != NULL;
    bytes += malloc_usable_size(block);
    return block;
}

void *malloc(size_t size) { return hold(__libc_malloc(size)); }
void *calloc(size_t count, size_t size) { return hold(__libc_calloc(count, size)); }
void *aligned_alloc(size_t alignment, size_t size) { return hold(__libc_memalign(alignment, size)); }

void free(void *block) {
    blocks -= block != NULL;
    bytes -= malloc_usable_size(block);
    __libc_free(block);
}

void *realloc(void *old, size_t size) {
    long before = malloc_usable_size(old);
    void *block = __libc_realloc(old, size);
    if (!block) return NULL;
    blocks += old == NULL;
    bytes += (long)malloc_usable_size(block) - before;
    return block;
}

int posix_memalign(void **place, size_t alignment, size_t size) {
    void *block = hold(__libc_memalign(alignment, size));
    if (block) *place = block;
    return block ? 0 : ENOMEM;
}

static void fail(const char *what) {
    fprintf(stderr, "memory: %s: %ld blocks of %ld bytes\n", what, blocks, bytes);
    exit(1);
}

static void call(yoyoash_store *store, const char *text) {
    char reply[64];
    size_t len;
    if (yoyoash_call_text(store, 0, text, reply, sizeof reply, &len) != YOYOASH_VALUE) fail(text);
}

/* Opens a store with one process. */
static void open_store(yoyoash_store *store) {
    if (yoyoash_open(store, 10, YOYOASH_DEFAULT_TABLES, YOYOASH_DEFAULT_OBJECTS) != YOYOASH_VALUE || yoyoash_spawn(store, 0) != YOYOASH_VALUE) fail("open");
}

static void make_table(yoyoash_store *store) {
    call(store, "{new,t,[named_table]}");
    call(store, "{insert,t,[{1,\"a text that has memory of its own\"},{2,[a,{b},<<\"c\">>]},{'an atom that has memory of its own'}]}");
    call(store, "{safe_fixtable,t,true}");
    call(store, "{delete,t,2}");
}

/* Closes stores that have a table. */
static void close_stores(yoyoash_store *store) {
    long before = blocks;
    for (int round = 0; round < ROUNDS; round++) {
        open_store(store);
        make_table(store);
        yoyoash_close(store);
        if (blocks != before) fail("a store that was closed keeps memory");
    }
}

/* Opens stores in the place of others that have a table. */
static void replace_stores(yoyoash_store *store) {
    open_store(store);
    long before = blocks;
    for (int round = 0; round < ROUNDS; round++) {
        make_table(store);
        open_store(store);
        if (blocks != before) fail("a store that was replaced keeps memory");
    }
}

/* Deletes tables of one store, of which the first leaves buffers for the others. */
static void delete_tables(yoyoash_store *store) {
    long before = 0;
    for (int round = 0; round < ROUNDS; round++) {
        make_table(store);
        call(store, "{delete,t}");
        if (round > 0 && blocks != before) fail("a table that was deleted keeps memory");
        before = blocks;
    }
}

/* Makes calls that take no memory, and returns how many more bytes are then allocated. */
static long grown(yoyoash_store *store) {
    long before = bytes;
    for (int number = 0; number < CALLS; number++) call(store, "{member,t,0}");
    return bytes - before;
}

/* Fills a table by one call, which also makes it grow until it has enough buckets. Before and after that, calls keep no memory. */
static void grow_table(yoyoash_store *store) {
    static char text[16 * OBJECTS];
    int len = sprintf(text, "{insert,t,[{0}");
    for (int key = 1; key < OBJECTS; key++) len += sprintf(text + len, ",{%d}", key);
    sprintf(text + len, "]}");
    call(store, "{new,t,[named_table]}");
    grown(store);
    if (grown(store) != 0) fail("calls on an empty table keep memory");
    long before = bytes;
    call(store, text);
    if (bytes - before < BYTES * OBJECTS) fail("a list of objects takes no memory");
    if (grown(store) != 0) fail("a table grows after the call that filled it, or calls keep memory");
}

/* Makes a call for each key, and returns the greatest number of bytes after one. */
static long call_each(yoyoash_store *store, const char *form, int count) {
    char text[100];
    long most = 0;
    for (int key = 0; key < count; key++) {
        snprintf(text, sizeof text, form, key);
        call(store, text);
        if (bytes > most) most = bytes;
    }
    return most;
}

/* Fills a table one by one. Then deletes all objects one by one, and inserts them again. */
static void fill_table(yoyoash_store *store) {
    call(store, "{new,t,[named_table]}");
    long before = bytes, most = call_each(store, "{insert,t,{%d,0}}", MANY), full = bytes;
    if (full - before > (long)MOST * MANY) fail("objects take too many bytes");
    if (most - full < (long)SPARE * MANY) fail("a table that has grown keeps what it took to grow");
    call_each(store, "{delete,t,%d}", MANY);
    call_each(store, "{insert,t,{%d,0}}", MANY);
    if (bytes - full > (long)MORE * MANY) fail("a table takes more memory if its objects are deleted and inserted again");
    call(store, "{delete,t}");
}

/* Removes objects in each way, from a table that is fixed or not. */
static void remove_objects(yoyoash_store *store, int is_fixed) {
    call(store, "{new,t,[named_table]}");
    call_each(store, "{insert,t,{%d,0}}", OBJECTS);
    for (size_t way = 0; way < sizeof REMOVALS / sizeof *REMOVALS; way++) {
        long before = blocks;
        call_each(store, "{insert,t,{%d," VALUE "}}", OBJECTS);
        if (blocks - before < OBJECTS) fail("objects have no memory of their own");
        if (is_fixed) call(store, "{safe_fixtable,t,true}");
        call_each(store, REMOVALS[way], strstr(REMOVALS[way], "%d") ? OBJECTS : 1);
        if (blocks - before > KEPT_BLOCKS) fail(REMOVALS[way]);
        if (is_fixed) call(store, "{safe_fixtable,t,false}");
    }
    call(store, "{delete,t}");
}

/* Reads a long reply, and then short ones. */
static void reply_long(yoyoash_store *store) {
    static char text[LONG + 100];
    char out[64];
    size_t len;
    call(store, "{new,t,[named_table]}");
    long before = bytes;
    sprintf(text, "{insert,t,{1,<<\"%0*d\">>}}", LONG, 0);
    call(store, text);
    call(store, "{lookup,t,1}");
    if (yoyoash_reply_external(store, (uint8_t *)out, sizeof out, &len) != YOYOASH_VALUE || len < LONG) fail("a long reply");
    call(store, "{delete,t,1}");
    grown(store);
    if (bytes - before > KEPT_BYTES) fail("a long reply stays in memory");
}

int main(void) {
    yoyoash_store store = {0};
    close_stores(&store);
    replace_stores(&store);
    delete_tables(&store);
    grow_table(&store);
    call(&store, "{delete,t}");
    fill_table(&store);
    remove_objects(&store, 0);
    remove_objects(&store, 1);
    reply_long(&store);
    yoyoash_close(&store);
    return 0;
}
