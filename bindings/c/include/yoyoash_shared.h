/* Yoyoash for C: a store that any thread may call. One call runs at a time, and its reply and its reason belong to the thread that made it.
   The lock is held only while the call runs: it is read before, and its reply is written after. Link with -pthread. See docs/c.md.

   Rules for callers, besides those of yoyoash.h: open a shared store once, before other threads use it, and close it once, after
   they have. Never move or copy it. An answer belongs to one thread. */
#ifndef YOYOASH_SHARED_H
#define YOYOASH_SHARED_H

#include <pthread.h>
#include <stdlib.h>
#include <yoyoash.h>

#ifdef __cplusplus
extern "C" {
#endif

/* A store and its lock. Only the functions below read or write its contents. */
typedef struct yoyoash_shared {
    pthread_mutex_t lock;
    yoyoash_store store;
} yoyoash_shared;

/* What a call returned. {0} is an empty answer, which a call fills; the next call reuses its memory. */
typedef struct yoyoash_answer {
    int32_t status; /* a yoyoash_status. After UNTOLD the call was made, but there was no memory for its reply */
    char *bytes;    /* after VALUE: the whole reply, as a text or in the external format, without a NUL after it */
    size_t len;     /* after VALUE: the number of bytes of the reply; after SYNTAX the offset of the fault; else 0 */
    size_t size;    /* the size of the memory at `bytes` */
    char why[128];  /* the reason of a refusal, ended by a NUL; empty if there is none */
    yoyoash_request request; /* the call and its reply, for the functions below */
} yoyoash_answer;

/* Closes the store of a new shared store, and makes its lock. Returns VALUE, or NO_MEMORY, after which there is no lock. */
static inline int32_t yoyoash_shared_begin(yoyoash_shared *shared) {
    yoyoash_store closed = {{0, 0}};
    shared->store = closed;
    return pthread_mutex_init(&shared->lock, NULL) == 0 ? YOYOASH_VALUE : YOYOASH_NO_MEMORY;
}

/* Opens a shared store with these limits, as yoyoash_open does. Returns VALUE, or NO_MEMORY, after which there is nothing to close. */
static inline int32_t yoyoash_shared_open(yoyoash_shared *shared, uint32_t max_processes, uint32_t max_tables, uint32_t max_objects) {
    if (yoyoash_shared_begin(shared) != YOYOASH_VALUE) return YOYOASH_NO_MEMORY;
    int32_t status = yoyoash_open(&shared->store, max_processes, max_tables, max_objects);
    if (status != YOYOASH_VALUE) pthread_mutex_destroy(&shared->lock);
    return status;
}

/* Opens a shared store whose tables hash their keys with this seed, as yoyoash_open_with_seed does. */
static inline int32_t yoyoash_shared_open_with_seed(yoyoash_shared *shared, uint32_t max_processes, uint32_t max_tables, uint32_t max_objects, uint64_t seed) {
    if (yoyoash_shared_begin(shared) != YOYOASH_VALUE) return YOYOASH_NO_MEMORY;
    int32_t status = yoyoash_open_with_seed(&shared->store, max_processes, max_tables, max_objects, seed);
    if (status != YOYOASH_VALUE) pthread_mutex_destroy(&shared->lock);
    return status;
}

/* Copies the reply of the request of an answer to its bytes, as far as they have room. */
static inline void yoyoash_answer_copy(yoyoash_answer *answer, int is_external) {
    char none[1];
    char *out = answer->bytes ? answer->bytes : none;
    size_t size = answer->bytes ? answer->size : 0;
    answer->status = is_external ? yoyoash_request_reply_external(&answer->request, (uint8_t *)out, size, &answer->len)
                                 : yoyoash_request_reply(&answer->request, out, size, &answer->len);
}

/* Copies the reply of the request of an answer to its bytes, which grow if they have no room for it. */
static inline void yoyoash_answer_write(yoyoash_answer *answer, int is_external) {
    yoyoash_answer_copy(answer, is_external);
    if (answer->status != YOYOASH_VALUE || answer->len <= answer->size) return;
    char *grown = (char *)realloc(answer->bytes, answer->len);
    if (!grown) {
        answer->status = YOYOASH_UNTOLD;
        answer->len = 0;
        return;
    }
    answer->bytes = grown;
    answer->size = answer->len;
    yoyoash_answer_copy(answer, is_external);
}

/* Ends the reason of an answer, of this length, by a NUL. */
static inline void yoyoash_answer_end_why(yoyoash_answer *answer, size_t len) {
    answer->why[len < sizeof answer->why ? len : sizeof answer->why - 1] = 0;
}

/* Makes a call for a process, as yoyoash_call or, if `is_external`, as yoyoash_call_external does. Returns the status. */
static inline int32_t yoyoash_shared_make(yoyoash_shared *shared, uint32_t pid, const void *call, size_t call_len, int is_external, yoyoash_answer *answer) {
    size_t why_len = 0;
    answer->why[0] = 0;
    answer->status = is_external ? yoyoash_request_read_external(&answer->request, pid, (const uint8_t *)call, call_len, &answer->len)
                                 : yoyoash_request_read(&answer->request, pid, (const char *)call, call_len, &answer->len);
    if (answer->status == YOYOASH_VALUE) {
        pthread_mutex_lock(&shared->lock);
        answer->status = yoyoash_request_run(&shared->store, &answer->request);
        pthread_mutex_unlock(&shared->lock);
    }
    if (answer->status == YOYOASH_VALUE) {
        yoyoash_answer_write(answer, is_external);
    } else {
        yoyoash_request_why(&answer->request, answer->why, sizeof answer->why - 1, &why_len);
        yoyoash_answer_end_why(answer, why_len);
    }
    return answer->status;
}

/* Makes the call of a text, such as `{lookup,t,a}`. */
static inline int32_t yoyoash_shared_call(yoyoash_shared *shared, uint32_t pid, const char *text, size_t text_len, yoyoash_answer *answer) {
    return yoyoash_shared_make(shared, pid, text, text_len, 0, answer);
}

/* Makes the call of a term in Erlang's External Term Format, such as that of `{lookup, [t, a]}`. */
static inline int32_t yoyoash_shared_call_external(yoyoash_shared *shared, uint32_t pid, const uint8_t *call, size_t call_len, yoyoash_answer *answer) {
    return yoyoash_shared_make(shared, pid, call, call_len, 1, answer);
}

/* Starts and ends a process, as yoyoash_spawn and yoyoash_exit do. The answer has no reply, but the reason of a refusal. */
static inline int32_t yoyoash_shared_step(yoyoash_shared *shared, uint32_t pid, int32_t (*step)(yoyoash_store *, uint32_t), yoyoash_answer *answer) {
    size_t why_len = 0;
    answer->len = 0;
    pthread_mutex_lock(&shared->lock);
    answer->status = step(&shared->store, pid);
    if (answer->status != YOYOASH_VALUE) yoyoash_why(&shared->store, answer->why, sizeof answer->why - 1, &why_len);
    pthread_mutex_unlock(&shared->lock);
    yoyoash_answer_end_why(answer, why_len);
    return answer->status;
}

static inline int32_t yoyoash_shared_spawn(yoyoash_shared *shared, uint32_t pid, yoyoash_answer *answer) {
    return yoyoash_shared_step(shared, pid, yoyoash_spawn, answer);
}

static inline int32_t yoyoash_shared_exit(yoyoash_shared *shared, uint32_t pid, yoyoash_answer *answer) {
    return yoyoash_shared_step(shared, pid, yoyoash_exit, answer);
}

/* Closes a shared store, and frees its memory. */
static inline void yoyoash_shared_close(yoyoash_shared *shared) {
    yoyoash_close(&shared->store);
    pthread_mutex_destroy(&shared->lock);
}

/* Frees the memory of an answer, which is empty then. */
static inline void yoyoash_answer_free(yoyoash_answer *answer) {
    yoyoash_answer empty = {0, NULL, 0, 0, {0}, {{0, 0}}};
    yoyoash_request_close(&answer->request);
    free(answer->bytes);
    *answer = empty;
}

#ifdef __cplusplus
}
#endif
#endif
