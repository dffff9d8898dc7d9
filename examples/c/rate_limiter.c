/* A limit of 100 requests for each client in a window of time. Four threads count in one store: update_counter adds 1 and returns
   the new count in one step, so no two threads get the same count.
   Build: cc -I bindings/c/include examples/c/rate_limiter.c dist/x86_64-linux/libyoyoash.a -pthread -o rate_limiter */
#include <stdio.h>
#include <yoyoash_shared.h>
#include <yoyoash_term.h>

enum { THREADS = 4, REQUESTS = 50, MOST = 100 };

static yoyoash_shared shared;

/* One thread: the process that it is in the store, and how many requests it allowed and refused. */
typedef struct worker {
    uint32_t pid;
    int allowed, refused;
    yoyoash_term call;
    yoyoash_answer answer;
} worker;

/* Makes the call that was built, and returns whether it was made and has a reply. */
static int make(worker *it, yoyoash_term_reader *at) {
    return yoyoash_term_end(&it->call) == YOYOASH_TERM_WELL &&
           yoyoash_shared_call_external(&shared, it->pid, it->call.bytes, it->call.len, &it->answer) == YOYOASH_VALUE &&
           yoyoash_term_read(at, it->answer.bytes, it->answer.len);
}

/* Makes the table of counts, which all processes may write. */
static int make_table(worker *it) {
    yoyoash_term_reader at;
    yoyoash_term_call(&it->call, "new");
    yoyoash_term_put_atom(&it->call, "counts");
    yoyoash_term_open_list(&it->call);
    yoyoash_term_put_atom(&it->call, "named_table");
    yoyoash_term_put_atom(&it->call, "public");
    yoyoash_term_close(&it->call);
    return make(it, &at);
}

/* Counts a request, {update_counter,[counts,{Client,Window},{2,1},{none,0}]}. Returns the count, or -1. */
static int64_t count(worker *it, const char *client, int64_t window) {
    yoyoash_term_reader at;
    int64_t counted;
    yoyoash_term_call(&it->call, "update_counter");
    yoyoash_term_put_atom(&it->call, "counts");
    yoyoash_term_open_tuple(&it->call);
    yoyoash_term_put_string(&it->call, client);
    yoyoash_term_put_integer(&it->call, window);
    yoyoash_term_close(&it->call);
    yoyoash_term_open_tuple(&it->call);
    yoyoash_term_put_integer(&it->call, 2);
    yoyoash_term_put_integer(&it->call, 1);
    yoyoash_term_close(&it->call);
    yoyoash_term_open_tuple(&it->call);
    yoyoash_term_put_atom(&it->call, "none");
    yoyoash_term_put_integer(&it->call, 0);
    yoyoash_term_close(&it->call);
    return make(it, &at) && yoyoash_term_get_integer(&at, &counted) ? counted : -1;
}

/* Sends the requests of one thread, all of one client in one window. */
static void *work(void *argument) {
    worker *it = (worker *)argument;
    for (int sent = 0; sent < REQUESTS; sent++) {
        int64_t counted = count(it, "10.0.0.7", 1);
        it->allowed += counted >= 1 && counted <= MOST;
        it->refused += counted > MOST;
    }
    return NULL;
}

int main(void) {
    static worker workers[THREADS];
    pthread_t threads[THREADS];
    int allowed = 0, refused = 0;
    if (yoyoash_shared_open(&shared, YOYOASH_DEFAULT_PROCESSES, YOYOASH_DEFAULT_TABLES, YOYOASH_DEFAULT_OBJECTS) != YOYOASH_VALUE) return 1;
    for (uint32_t pid = 0; pid < THREADS; pid++) {
        workers[pid].pid = pid;
        if (yoyoash_shared_spawn(&shared, pid, &workers[pid].answer) != YOYOASH_VALUE) return 1;
    }
    if (!make_table(&workers[0])) return 1;
    for (int each = 0; each < THREADS; each++)
        if (pthread_create(&threads[each], NULL, work, &workers[each]) != 0) return 1;
    for (int each = 0; each < THREADS; each++) {
        pthread_join(threads[each], NULL);
        allowed += workers[each].allowed;
        refused += workers[each].refused;
    }
    printf("%d threads sent %d requests: %d allowed, %d refused\n", THREADS, THREADS * REQUESTS, allowed, refused);
    printf("the next window begins with count %lld\n", (long long)count(&workers[0], "10.0.0.7", 2));
    for (int each = 0; each < THREADS; each++) {
        yoyoash_term_free(&workers[each].call);
        yoyoash_answer_free(&workers[each].answer);
    }
    yoyoash_shared_close(&shared);
    return 0;
}
