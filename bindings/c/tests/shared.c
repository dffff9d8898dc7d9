/* Threads share a store: each counts in a common object, fills a table of its own, and reads what it wrote. Replies outgrow the
   memory of an answer, and a refusal has its reason. */
#include <pthread.h>
#include <stdio.h>
#include <stdlib.h>
#include <string.h>
#include <yoyoash_shared.h>

enum { THREADS = 4, CALLS = 20000 };

static yoyoash_shared shared;

static void fail(const char *what, const yoyoash_answer *answer) {
    fprintf(stderr, "shared: %s: %s, %.*s\n", what, answer->why, (int)answer->len, answer->bytes ? answer->bytes : "");
    exit(1);
}

/* Makes a call, and fails if its reply is another one. */
static void expect(uint32_t pid, const char *text, const char *reply, yoyoash_answer *answer) {
    if (yoyoash_shared_call(&shared, pid, text, strlen(text), answer) != YOYOASH_VALUE) fail(text, answer);
    if (reply && (answer->len != strlen(reply) || memcmp(answer->bytes, reply, answer->len) != 0)) fail(text, answer);
}

static void *work(void *number) {
    uint32_t pid = *(uint32_t *)number;
    yoyoash_answer answer = {0};
    char text[64], reply[64];
    if (yoyoash_shared_spawn(&shared, pid, &answer) != YOYOASH_VALUE) fail("spawn", &answer);
    snprintf(text, sizeof text, "{new,t%u,[named_table]}", pid);
    expect(pid, text, NULL, &answer);
    for (int made = 0; made < CALLS; made++) {
        expect(pid, "{update_counter,all,count,1}", NULL, &answer);
        snprintf(text, sizeof text, "{insert,t%u,{%d,<<\"0123456789\">>}}", pid, made);
        expect(pid, text, "true", &answer);
        snprintf(text, sizeof text, "{member,t%u,%d}", pid, made);
        expect(pid, text, "true", &answer);
    }
    snprintf(text, sizeof text, "{tab2list,t%u}", pid);
    expect(pid, text, NULL, &answer);
    if (answer.len < CALLS * 15) fail("tab2list", &answer);
    snprintf(text, sizeof text, "{info,t%u,size}", pid);
    snprintf(reply, sizeof reply, "%d", CALLS);
    expect(pid, text, reply, &answer);
    if (yoyoash_shared_exit(&shared, pid, &answer) != YOYOASH_VALUE) fail("exit", &answer);
    yoyoash_answer_free(&answer);
    return NULL;
}

/* The bytes of {lookup_element, [all, count, 2]}. */
static const uint8_t LOOKUP[] = {131, 104, 2, 119, 14, 'l', 'o', 'o', 'k', 'u', 'p', '_', 'e', 'l', 'e', 'm', 'e', 'n', 't', 108, 0, 0, 0, 3, 119, 3, 'a', 'l', 'l', 119, 5, 'c', 'o', 'u', 'n', 't', 97, 2, 106};
/* The bytes of 80000. */
static const uint8_t COUNTED[] = {131, 98, 0, 1, 56, 128};

int main(void) {
    pthread_t threads[THREADS];
    uint32_t pids[THREADS];
    yoyoash_answer answer = {0};
    if (yoyoash_shared_open(&shared, YOYOASH_DEFAULT_PROCESSES, YOYOASH_DEFAULT_TABLES, YOYOASH_DEFAULT_OBJECTS) != YOYOASH_VALUE) return 1;
    yoyoash_shared_spawn(&shared, 99, &answer);
    expect(99, "{new,all,[named_table,public]}", "all", &answer);
    expect(99, "{insert,all,{count,0}}", "true", &answer);
    for (uint32_t each = 0; each < THREADS; each++) {
        pids[each] = each;
        pthread_create(&threads[each], NULL, work, &pids[each]);
    }
    for (int each = 0; each < THREADS; each++) pthread_join(threads[each], NULL);
    expect(99, "{lookup_element,all,count,2}", "80000", &answer);
    if (yoyoash_shared_call_external(&shared, 99, LOOKUP, sizeof LOOKUP, &answer) != YOYOASH_VALUE) fail("external", &answer);
    if (answer.len != sizeof COUNTED || memcmp(answer.bytes, COUNTED, answer.len) != 0) fail("external reply", &answer);
    if (yoyoash_shared_call(&shared, 99, "{lookup,none,1}", 15, &answer) != YOYOASH_BADARG || !strstr(answer.why, "no such table")) fail("no refusal", &answer);
    if (yoyoash_shared_call(&shared, 99, "{lookup,all", 11, &answer) != YOYOASH_SYNTAX || answer.len != 11) fail("no fault", &answer);
    yoyoash_answer_free(&answer);
    yoyoash_shared_close(&shared);
    return 0;
}
