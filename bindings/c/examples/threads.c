/* Four threads share one store, each as a process of its own.
   Build: cc -I bindings/c/include bindings/c/examples/threads.c dist/x86_64-linux/libyoyoash.a -pthread -o threads */
#include <yoyoash_shared.h>
#include <stdio.h>

#define THREADS 4
#define CALLS 10000

static yoyoash_shared shared;

/* Makes a call, and returns whether it was made. */
static int call(uint32_t pid, const char *text, yoyoash_answer *answer) {
    return yoyoash_shared_call(&shared, pid, text, strlen(text), answer) == YOYOASH_VALUE;
}

static void *count(void *pid) {
    yoyoash_answer answer = {0};
    for (int made = 0; made < CALLS; made++)
        call(*(uint32_t *)pid, "{update_counter,t,count,1,{count,0}}", &answer);
    yoyoash_answer_free(&answer);
    return NULL;
}

int main(void) {
    pthread_t threads[THREADS];
    uint32_t pids[THREADS];
    yoyoash_answer answer = {0};
    if (yoyoash_shared_open(&shared, YOYOASH_DEFAULT_PROCESSES, YOYOASH_DEFAULT_TABLES, YOYOASH_DEFAULT_OBJECTS) != YOYOASH_VALUE)
        return 1;
    for (uint32_t pid = 0; pid < THREADS; pid++) {
        pids[pid] = pid;
        yoyoash_shared_spawn(&shared, pid, &answer);
    }
    call(0, "{new,t,[named_table,public]}", &answer);
    for (int each = 0; each < THREADS; each++)
        pthread_create(&threads[each], NULL, count, &pids[each]);
    for (int each = 0; each < THREADS; each++)
        pthread_join(threads[each], NULL);
    if (!call(0, "{lookup_element,t,count,2}", &answer))
        return 1;
    printf("%.*s\n", (int)answer.len, answer.bytes);
    yoyoash_answer_free(&answer);
    yoyoash_shared_close(&shared);
    return 0;
}
