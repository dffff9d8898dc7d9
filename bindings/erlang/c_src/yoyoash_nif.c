/* The store inside an Erlang node, for the module yoyoash_nif. Requests and replies are those of `ets_script --external`,
   without the lengths. */
#include <erl_nif.h>
#include <pthread.h>
#include <string.h>
#include <sys/random.h>
#include "yoyoash.h"

enum { SPAWN = 0, END = 1, CALL = 2 };
enum { STACK_BYTES = 4096, REASON_BYTES = 256, TRIES = 1000 };

/* A store with its lock. It is closed when the process that opened it ends, or when no term refers to it. */
typedef struct shared_store {
    ErlNifMutex *lock;
    yoyoash_store store;
} shared_store;

static ErlNifResourceType *store_type;

/* Takes a store out of its lock and frees it. Callers find a closed store at once: nobody waits for the memory. */
static void take_and_close(shared_store *shared) {
    enif_mutex_lock(shared->lock);
    yoyoash_store taken = shared->store;
    memset(&shared->store, 0, sizeof shared->store);
    enif_mutex_unlock(shared->lock);
    yoyoash_close(&taken);
}

/* Frees a store whose owner has ended, in a thread of its own. */
static void *close_in_thread(void *object) {
    take_and_close(object);
    enif_release_resource(object);
    return NULL;
}

/* Starts that thread, since this runs on a scheduler, and a long call may have the lock. Without a thread the last reference
   to the store frees it. */
static void owner_ended(ErlNifEnv *env, void *object, ErlNifPid *pid, ErlNifMonitor *monitor) {
    pthread_attr_t detached;
    pthread_t thread;
    (void)env, (void)pid, (void)monitor;
    enif_keep_resource(object);
    if (pthread_attr_init(&detached) == 0) {
        int failed = pthread_attr_setdetachstate(&detached, PTHREAD_CREATE_DETACHED) != 0 ||
                     pthread_create(&thread, &detached, close_in_thread, object) != 0;
        pthread_attr_destroy(&detached);
        if (!failed) return;
    }
    enif_release_resource(object);
}

/* Frees what a store has left when no term refers to it. By then it is closed, unless no thread could be started. */
static void free_store(ErlNifEnv *env, void *object) {
    shared_store *shared = object;
    (void)env;
    if (shared->lock == NULL) return;
    yoyoash_close(&shared->store);
    enif_mutex_destroy(shared->lock);
}

static int load(ErlNifEnv *env, void **data, ERL_NIF_TERM info) {
    ErlNifResourceTypeInit callbacks = {.dtor = free_store, .down = owner_ended};
    (void)data, (void)info;
    store_type = enif_open_resource_type_x(env, "yoyoash_store", &callbacks, ERL_NIF_RT_CREATE | ERL_NIF_RT_TAKEOVER, NULL);
    return store_type == NULL;
}

/* A module that is loaded again takes the stores over. */
static int upgrade(ErlNifEnv *env, void **data, void **old_data, ERL_NIF_TERM info) {
    (void)old_data;
    return load(env, data, info);
}

static ERL_NIF_TERM is_loaded(ErlNifEnv *env, int count, const ERL_NIF_TERM args[]) {
    (void)count, (void)args;
    return enif_make_atom(env, "true");
}

static ERL_NIF_TERM error(ErlNifEnv *env, const char *reason) {
    return enif_make_tuple2(env, enif_make_atom(env, "error"), enif_make_atom(env, reason));
}

/* Opens a store whose owner is the caller. Returns 0 if memory is refused. */
static int open_shared(ErlNifEnv *env, shared_store *shared, const unsigned limits[3], uint64_t seed) {
    ErlNifPid self;
    shared->lock = enif_mutex_create("yoyoash_store");
    return shared->lock != NULL &&
           yoyoash_open_with_seed(&shared->store, limits[0], limits[1], limits[2], seed) == YOYOASH_VALUE &&
           enif_monitor_process(env, shared, enif_self(env, &self), NULL) == 0;
}

/* open(Processes, Tables, Objects, Seed). Returns {ok, Handle} or {error, Reason}. A seed that is no number is drawn from the
   system. */
static ERL_NIF_TERM open_store(ErlNifEnv *env, int count, const ERL_NIF_TERM args[]) {
    unsigned limits[3];
    ErlNifUInt64 given;
    uint64_t seed;
    (void)count;
    for (int i = 0; i < 3; i++)
        if (!enif_get_uint(env, args[i], &limits[i])) return enif_make_badarg(env);
    if (enif_get_uint64(env, args[3], &given)) seed = given;
    else if (!enif_is_atom(env, args[3])) return enif_make_badarg(env);
    else if (getrandom(&seed, sizeof seed, 0) != sizeof seed) return error(env, "no_seed");
    shared_store *shared = enif_alloc_resource(store_type, sizeof *shared);
    memset(shared, 0, sizeof *shared);
    ERL_NIF_TERM handle = enif_make_resource(env, shared);
    int opened = open_shared(env, shared, limits, seed);
    enif_release_resource(shared);
    return opened ? enif_make_tuple2(env, enif_make_atom(env, "ok"), handle) : error(env, "enomem");
}

/* Closes a store before its owner ends. */
static ERL_NIF_TERM close_now(ErlNifEnv *env, int count, const ERL_NIF_TERM args[]) {
    shared_store *shared;
    (void)count;
    if (!enif_get_resource(env, args[0], store_type, (void **)&shared)) return enif_make_badarg(env);
    take_and_close(shared);
    return enif_make_atom(env, "ok");
}

/* Makes a reply: the status, and room for some bytes at *rest. */
static ERL_NIF_TERM reply(ErlNifEnv *env, int32_t status, size_t size, uint8_t **rest) {
    ERL_NIF_TERM term;
    uint8_t *bytes = enif_make_new_binary(env, size + 1, &term);
    bytes[0] = (uint8_t)status;
    *rest = bytes + 1;
    return term;
}

/* Makes a reply of the status and some bytes. */
static ERL_NIF_TERM reply_of(ErlNifEnv *env, int32_t status, const uint8_t *bytes, size_t size) {
    uint8_t *rest;
    ERL_NIF_TERM term = reply(env, status, size, &rest);
    memcpy(rest, bytes, size);
    return term;
}

/* Makes a reply of the status and the reason of the last refusal. */
static ERL_NIF_TERM refusal(ErlNifEnv *env, yoyoash_store *store, int32_t status) {
    char reason[REASON_BYTES];
    size_t len = 0;
    if (yoyoash_why(store, reason, sizeof reason, &len) != YOYOASH_VALUE) len = 0;
    return reply_of(env, status, (const uint8_t *)reason, len < sizeof reason ? len : sizeof reason);
}

/* Makes the call, and a reply of its status and its term. A term that is longer than the stack's buffer is written again. */
static ERL_NIF_TERM call(ErlNifEnv *env, yoyoash_store *store, unsigned pid, const ErlNifBinary *bytes) {
    uint8_t out[STACK_BYTES], *rest;
    size_t len = 0;
    int32_t status = yoyoash_call_external(store, pid, bytes->data, bytes->size, out, sizeof out, &len);
    if (status != YOYOASH_VALUE) return status == YOYOASH_UNTOLD ? reply(env, status, 0, &rest) : refusal(env, store, status);
    if (len <= sizeof out) return reply_of(env, status, out, len);
    ERL_NIF_TERM term = reply(env, status, len, &rest);
    status = yoyoash_reply_external(store, rest, len, &len);
    return status == YOYOASH_VALUE ? term : reply(env, YOYOASH_UNTOLD, 0, &rest);
}

/* Answers a request while the lock is held. */
static ERL_NIF_TERM answer(ErlNifEnv *env, yoyoash_store *store, unsigned kind, unsigned pid, const ErlNifBinary *bytes) {
    if (kind == CALL) return call(env, store, pid, bytes);
    int32_t status = kind == SPAWN ? yoyoash_spawn(store, pid) : yoyoash_exit(store, pid);
    uint8_t *rest;
    return status == YOYOASH_VALUE ? reply(env, status, 0, &rest) : refusal(env, store, status);
}

/* Answers a request: ask(Handle, Kind, Pid, Bytes). No scheduler waits long for the lock, not even a dirty one, of which there
   are few: if another request has it, the answer is `busy', and the caller waits by itself. */
static ERL_NIF_TERM ask(ErlNifEnv *env, int count, const ERL_NIF_TERM args[]) {
    shared_store *shared;
    unsigned kind, pid;
    ErlNifBinary bytes;
    (void)count;
    if (!enif_get_resource(env, args[0], store_type, (void **)&shared) || !enif_get_uint(env, args[1], &kind) || kind > CALL ||
        !enif_get_uint(env, args[2], &pid) || !enif_inspect_binary(env, args[3], &bytes))
        return enif_make_badarg(env);
    for (int tries = 0; enif_mutex_trylock(shared->lock) != 0; tries++)
        if (tries == TRIES) return enif_make_atom(env, "busy");
    ERL_NIF_TERM term = answer(env, &shared->store, kind, pid, &bytes);
    enif_mutex_unlock(shared->lock);
    return term;
}

static ErlNifFunc functions[] = {
    {"is_loaded", 0, is_loaded, 0},
    {"open", 4, open_store, 0},
    {"close", 1, close_now, ERL_NIF_DIRTY_JOB_CPU_BOUND},
    {"ask", 4, ask, 0},
    {"ask_long", 4, ask, ERL_NIF_DIRTY_JOB_CPU_BOUND},
};

ERL_NIF_INIT(yoyoash_nif, functions, load, NULL, upgrade, NULL)
