/* Tests requests: a call that is read, run and answered by three functions. A request moves between threads, runs again, and keeps its
   last reply. A refusal and a fault have their reasons. Refused memory changes no table, and all memory is given back. */
#include <malloc.h>
#include <pthread.h>
#include <stdio.h>
#include <stdlib.h>
#include <yoyoash.h>

enum { THREADS = 4, CALLS = 20000 };
extern void *__libc_malloc(size_t), *__libc_calloc(size_t, size_t), *__libc_realloc(void *, size_t), *__libc_memalign(size_t, size_t);
extern void __libc_free(void *);

static yoyoash_store store;
static pthread_mutex_t lock = PTHREAD_MUTEX_INITIALIZER;
/* The number of blocks that this thread has allocated and not freed. */
static __thread long blocks;
/* The number of allocations that succeed before one is refused. Below 0, none is refused. */
static __thread long left = -1;

static int refused(void) { return left >= 0 && left-- == 0; }

void *malloc(size_t size) {
    void *block = refused() ? NULL : __libc_malloc(size);
    blocks += block != NULL;
    return block;
}

void *calloc(size_t count, size_t size) {
    void *block = refused() ? NULL : __libc_calloc(count, size);
    blocks += block != NULL;
    return block;
}

void free(void *block) {
    blocks -= block != NULL;
    __libc_free(block);
}

void *realloc(void *old, size_t size) {
    void *block = refused() ? NULL : __libc_realloc(old, size);
    blocks += block && !old;
    return block;
}

void *aligned_alloc(size_t alignment, size_t size) {
    void *block = refused() ? NULL : __libc_memalign(alignment, size);
    blocks += block != NULL;
    return block;
}

int posix_memalign(void **place, size_t alignment, size_t size) {
    void *block = aligned_alloc(alignment, size);
    if (block) *place = block;
    return block ? 0 : 12;
}

static void check(int holds, const char *what) {
    if (holds) return;
    fprintf(stderr, "request: %s\n", what);
    exit(1);
}

/* Reads a call of a process, which must be one. */
static void read_call(yoyoash_request *request, uint32_t pid, const char *text) {
    size_t len = 999;
    check(yoyoash_request_read(request, pid, text, strlen(text), &len) == YOYOASH_VALUE && len == 0, text);
}

/* Checks the reply of a request, and that nothing is written after as much as fits. */
static void expect(yoyoash_request *request, const char *reply, size_t room) {
    char out[64];
    size_t len = 999, known = strlen(reply) < room ? strlen(reply) : room;
    memset(out, 'x', sizeof out);
    check(yoyoash_request_reply(request, out, room, &len) == YOYOASH_VALUE, reply);
    check(len == strlen(reply) && memcmp(out, reply, known) == 0, reply);
    for (size_t place = known; place < sizeof out; place++) check(out[place] == 'x', "bytes after a reply");
}

static void expect_why(yoyoash_request *request, const char *why) {
    char out[128];
    size_t len = 999;
    check(yoyoash_request_why(request, out, sizeof out, &len) == YOYOASH_VALUE, why);
    check(len == strlen(why) && memcmp(out, why, len) == 0, why);
}

/* Makes a call by a request, and checks its reply. */
static void make(yoyoash_request *request, uint32_t pid, const char *text, const char *reply) {
    read_call(request, pid, text);
    check(yoyoash_request_run(&store, request) == YOYOASH_VALUE, text);
    expect(request, reply, 64);
}

/* A closed request, and a request without a call, are refused and stay as they are. */
static void try_closed(void) {
    yoyoash_request request = {0};
    yoyoash_store closed = {0};
    char out[8];
    size_t len = 999;
    check(yoyoash_request_run(&store, &request) == YOYOASH_CLOSED, "a closed request is run");
    check(yoyoash_request_reply(&request, out, sizeof out, &len) == YOYOASH_CLOSED && len == 0, "a closed request has a reply");
    check(yoyoash_request_reply_external(&request, (uint8_t *)out, sizeof out, &len) == YOYOASH_CLOSED && len == 0, "a closed request has bytes");
    check(yoyoash_request_why(&request, out, sizeof out, &len) == YOYOASH_CLOSED && len == 0, "a closed request has a reason");
    read_call(&request, 0, "{member,t,1}");
    check(yoyoash_request_run(&closed, &request) == YOYOASH_CLOSED, "a request is run on a closed store");
    check(yoyoash_request_reply(&request, out, sizeof out, &len) == YOYOASH_NO_PROCESS && len == 0, "a request that was not run has a reply");
    check(yoyoash_request_run(&store, &request) == YOYOASH_VALUE, "a request is not run after a closed store");
    expect(&request, "false", 64);
    yoyoash_request_close(&request);
    check(yoyoash_request_run(&store, &request) == YOYOASH_CLOSED, "a request is run after it was closed");
    yoyoash_request_close(&request);
}

/* A request makes its call again at each run. Another call can be read into it. */
static void try_again(void) {
    yoyoash_request request = {0};
    make(&request, 0, "{insert,t,{count,0}}", "true");
    read_call(&request, 0, "{update_counter,t,count,1}");
    for (int run = 0; run < 3; run++) check(yoyoash_request_run(&store, &request) == YOYOASH_VALUE, "a second run");
    expect(&request, "3", 64);
    read_call(&request, 0, "{lookup,t,count}");
    expect(&request, "3", 64);
    check(yoyoash_request_run(&store, &request) == YOYOASH_VALUE, "lookup");
    expect(&request, "[{count,3}]", 64);
    expect(&request, "[{count,3}]", 4);
    expect(&request, "[{count,3}]", 0);
    yoyoash_request_close(&request);
}

/* A refusal and a fault have a reason in the request; the last reply and the reason of the store stay. */
static void try_refusals(void) {
    yoyoash_request request = {0};
    char out[128];
    size_t len = 999;
    check(yoyoash_call_text(&store, 0, "{lookup,t,count}", out, sizeof out, &len) == YOYOASH_VALUE, "lookup");
    read_call(&request, 0, "{lookup,none,1}");
    expect_why(&request, "");
    check(yoyoash_request_run(&store, &request) == YOYOASH_BADARG, "no table");
    expect_why(&request, "argument 1: no such table");
    check(yoyoash_request_reply(&request, out, sizeof out, &len) == YOYOASH_BADARG && len == 0, "the reply of a refusal");
    check(yoyoash_why(&store, out, sizeof out, &len) == YOYOASH_VALUE && len == 0, "the store has the reason of a request");
    check(yoyoash_reply(&store, out, sizeof out, &len) == YOYOASH_VALUE && len == 11, "the store has the reply of a request");
    read_call(&request, 77, "{member,t,1}");
    check(yoyoash_request_run(&store, &request) == YOYOASH_NO_PROCESS, "no process");
    expect_why(&request, "no such process (or it has exited)");
    make(&request, 0, "{member,t,count}", "true");
    expect_why(&request, "");
    check(yoyoash_request_read(&request, 0, "{member,T,1}", 12, &len) == YOYOASH_SYNTAX && len == 8, "no fault");
    expect_why(&request, "variables are not supported");
    check(yoyoash_request_run(&store, &request) == YOYOASH_CLOSED, "a fault is run");
    expect(&request, "true", 64);
    expect_why(&request, "variables are not supported");
    yoyoash_request_close(&request);
}

/* Calls and replies in Erlang's External Term Format. */
static void try_external(void) {
    static const uint8_t LOOKUP[] = {131, 104, 2, 119, 6, 'm', 'e', 'm', 'b', 'e', 'r', 108, 0, 0, 0, 2, 119, 1, 't', 97, 9, 106};
    static const uint8_t FALSE[] = {131, 119, 5, 'f', 'a', 'l', 's', 'e'};
    yoyoash_request request = {0};
    uint8_t out[16];
    size_t len = 999;
    check(yoyoash_request_read_external(&request, 0, LOOKUP, sizeof LOOKUP, &len) == YOYOASH_VALUE && len == 0, "bytes");
    check(yoyoash_request_run(&store, &request) == YOYOASH_VALUE, "a call of bytes");
    check(yoyoash_request_reply_external(&request, out, sizeof out, &len) == YOYOASH_VALUE, "a reply of bytes");
    check(len == sizeof FALSE && memcmp(out, FALSE, len) == 0, "the bytes of a reply");
    expect(&request, "false", 64);
    check(yoyoash_request_read_external(&request, 0, LOOKUP, 5, &len) == YOYOASH_SYNTAX && len == 5, "no fault of bytes");
    expect_why(&request, "the bytes end inside a term");
    yoyoash_request_close(&request);
}

/* Refuses each allocation of a read and of a run in turn: the status says so, and no table has changed. */
static void try_memory(void) {
    static const char INSERT[] = "{insert,t,[{\"a key with memory\",\"a value with memory\"},{<<\"0123456789\">>,[1,2,3]}]}";
    yoyoash_request request = {0};
    size_t len;
    int32_t status = YOYOASH_NO_MEMORY;
    int refusals = 0;
    for (long allowed = 0; status == YOYOASH_NO_MEMORY; allowed++, refusals++) {
        left = allowed;
        status = yoyoash_request_read(&request, 0, INSERT, sizeof INSERT - 1, &len);
        left = -1;
        check(len == 0, "a length without memory");
    }
    check(status == YOYOASH_VALUE && refusals > 3, "a read without memory");
    status = YOYOASH_NO_MEMORY;
    for (long allowed = refusals = 0; status == YOYOASH_NO_MEMORY; allowed++, refusals++) {
        yoyoash_request size = {0};
        make(&size, 0, "{info,t,size}", "1");
        yoyoash_request_close(&size);
        left = allowed;
        status = yoyoash_request_run(&store, &request);
        left = -1;
        if (status == YOYOASH_NO_MEMORY) expect_why(&request, "out of memory");
    }
    check(status == YOYOASH_VALUE && refusals > 2, "a run without memory");
    make(&request, 0, "{info,t,size}", "3");
    yoyoash_request_close(&request);
}

/* Makes the call of a request under the lock. */
static void run_locked(yoyoash_request *request) {
    pthread_mutex_lock(&lock);
    check(yoyoash_request_run(&store, request) == YOYOASH_VALUE, "a run among threads");
    pthread_mutex_unlock(&lock);
}

/* Runs a request that another thread has read, and many of its own. */
static void *work(void *read_before) {
    yoyoash_request own = {0};
    run_locked((yoyoash_request *)read_before);
    for (int made = 0; made < CALLS; made++) {
        read_call(&own, 0, "{update_counter,t,shared,1}");
        run_locked(&own);
    }
    yoyoash_request_close(&own);
    return NULL;
}

static void try_threads(void) {
    pthread_t threads[THREADS];
    yoyoash_request requests[THREADS] = {{{0, 0}}}, request = {0};
    make(&request, 0, "{insert,t,{shared,0}}", "true");
    for (int each = 0; each < THREADS; each++) {
        read_call(&requests[each], 0, "{update_counter,t,shared,1000000}");
        pthread_create(&threads[each], NULL, work, &requests[each]);
    }
    for (int each = 0; each < THREADS; each++) {
        pthread_join(threads[each], NULL);
        yoyoash_request_close(&requests[each]);
    }
    make(&request, 0, "{lookup_element,t,shared,2}", "4080000");
    yoyoash_request_close(&request);
}

int main(void) {
    yoyoash_request request = {0};
    check(yoyoash_open(&store, 10, 10, 1000) == YOYOASH_VALUE && yoyoash_spawn(&store, 0) == YOYOASH_VALUE, "open");
    make(&request, 0, "{new,t,[named_table]}", "t");
    yoyoash_request_close(&request);
    try_closed();
    try_again();
    try_refusals();
    try_external();
    try_memory();
    long before = blocks;
    try_closed();
    try_external();
    check(blocks == before, "a request keeps memory");
    try_threads();
    yoyoash_close(&store);
    return 0;
}
