/* Measures the CPU time of one insertion and of one lookup, and the memory of a pair of integers, in the store of a name: 100,000
   pairs, inserted in order and looked up at random. Redis has its server's time in the figures of `run`. */
#include <hiredis/hiredis.h>
#include <lmdb.h>
#include <sqlite3.h>
#include <stdio.h>
#include <time.h>
#include <unistd.h>
#include <yoyoash_term.h>

enum { PAIRS = 100000, LOOKUPS = 300000 };

static void need(int holds) {
    if (!holds) {
        fprintf(stderr, "stores: a store failed\n");
        exit(1);
    }
}

static yoyoash_store store;
static yoyoash_term call, reply;

static yoyoash_term_reader made(void) {
    yoyoash_term_reader at;
    need(yoyoash_term_make(&store, 0, &call, &reply) == YOYOASH_VALUE && yoyoash_term_read(&at, reply.bytes, reply.len));
    return at;
}

static void begin(const char *name) {
    yoyoash_term_call(&call, name);
    yoyoash_term_put_atom(&call, "t");
}

static void yoyoash_start(void) {
    need(yoyoash_open(&store, 10, 10, 1000000) == YOYOASH_VALUE && yoyoash_spawn(&store, 0) == YOYOASH_VALUE);
    begin("new");
    yoyoash_term_open_list(&call);
    yoyoash_term_put_atom(&call, "named_table");
    yoyoash_term_close(&call);
    made();
}

static void yoyoash_put(int64_t key) {
    begin("insert");
    yoyoash_term_open_tuple(&call);
    yoyoash_term_put_integer(&call, key);
    yoyoash_term_put_integer(&call, key);
    yoyoash_term_close(&call);
    made();
}

static int64_t yoyoash_get(int64_t key) {
    int64_t value;
    begin("lookup_element");
    yoyoash_term_put_integer(&call, key);
    yoyoash_term_put_integer(&call, 2);
    yoyoash_term_reader at = made();
    need(yoyoash_term_get_integer(&at, &value));
    return value;
}

static sqlite3 *base;
static sqlite3_stmt *put, *get;

static void sqlite_start(void) {
    need(sqlite3_open(":memory:", &base) == SQLITE_OK);
    need(sqlite3_exec(base, "create table t(k integer primary key, v integer); begin", 0, 0, 0) == SQLITE_OK);
    need(sqlite3_prepare_v2(base, "insert into t values(?,?)", -1, &put, 0) == SQLITE_OK);
    need(sqlite3_prepare_v2(base, "select v from t where k=?", -1, &get, 0) == SQLITE_OK);
}

static void sqlite_put(int64_t key) {
    sqlite3_bind_int64(put, 1, key);
    sqlite3_bind_int64(put, 2, key);
    need(sqlite3_step(put) == SQLITE_DONE);
    sqlite3_reset(put);
}

static int64_t sqlite_get(int64_t key) {
    sqlite3_bind_int64(get, 1, key);
    need(sqlite3_step(get) == SQLITE_ROW);
    int64_t value = sqlite3_column_int64(get, 0);
    sqlite3_reset(get);
    return value;
}

static MDB_env *env;
static MDB_txn *txn;
static MDB_dbi dbi;

static void lmdb_start(void) {
    need(mdb_env_create(&env) == 0 && mdb_env_set_mapsize(env, 1u << 30) == 0 && mdb_env_open(env, "lmdb", MDB_NOSUBDIR, 0600) == 0);
    need(mdb_txn_begin(env, 0, 0, &txn) == 0 && mdb_dbi_open(txn, 0, MDB_INTEGERKEY, &dbi) == 0);
}

static void lmdb_put(int64_t key) {
    MDB_val from = {sizeof key, &key}, to = from;
    need(mdb_put(txn, dbi, &from, &to, 0) == 0);
}

/* Each lookup is a transaction of its own. The first ends that of the insertions. */
static int64_t lmdb_get(int64_t key) {
    static int is_reading;
    MDB_val from = {sizeof key, &key}, found;
    int64_t value;
    if (!is_reading++) need(mdb_txn_commit(txn) == 0 && mdb_txn_begin(env, 0, MDB_RDONLY, &txn) == 0);
    mdb_txn_reset(txn);
    need(mdb_txn_renew(txn) == 0 && mdb_get(txn, dbi, &from, &found) == 0);
    memcpy(&value, found.mv_data, sizeof value);
    return value;
}

static redisContext *redis;

static void redis_start(void) {
    redis = redisConnectUnix("redis.sock");
    need(redis && !redis->err);
}

static void redis_put(int64_t key) { freeReplyObject(redisCommand(redis, "set %lld %lld", (long long)key, (long long)key)); }

static int64_t redis_get(int64_t key) {
    redisReply *found = (redisReply *)redisCommand(redis, "get %lld", (long long)key);
    need(found && found->str);
    int64_t value = atoll(found->str);
    freeReplyObject(found);
    return value;
}

static const struct {
    const char *name;
    void (*start)(void);
    void (*put)(int64_t);
    int64_t (*get)(int64_t);
} stores[] = {{"yoyoash", yoyoash_start, yoyoash_put, yoyoash_get}, {"sqlite", sqlite_start, sqlite_put, sqlite_get},
              {"lmdb", lmdb_start, lmdb_put, lmdb_get}, {"redis", redis_start, redis_put, redis_get}};

static double cpu(void) {
    struct timespec time;
    clock_gettime(CLOCK_PROCESS_CPUTIME_ID, &time);
    return (double)time.tv_sec * 1e9 + (double)time.tv_nsec;
}

static double resident(void) {
    long all, pages = 0;
    FILE *file = fopen("/proc/self/statm", "r");
    need(file && fscanf(file, "%ld %ld", &all, &pages) == 2);
    fclose(file);
    return (double)pages * (double)sysconf(_SC_PAGESIZE);
}

static void measure(size_t each) {
    uint64_t seed = 1;
    stores[each].start();
    stores[each].put(PAIRS);
    double before = resident(), began = cpu();
    for (int64_t key = 0; key < PAIRS; key++) stores[each].put(key);
    double filled = cpu(), after = resident();
    stores[each].get(0);
    double found = cpu();
    for (int looked = 0; looked < LOOKUPS; looked++) {
        seed = seed * 6364136223846793005u + 1442695040888963407u;
        int64_t key = (int64_t)((seed >> 33) % PAIRS);
        need(stores[each].get(key) == key);
    }
    printf("%s: insert %.0f ns, lookup %.0f ns, %.0f bytes a pair\n", stores[each].name, (filled - began) / PAIRS, (cpu() - found) / LOOKUPS, (after - before) / PAIRS);
}

int main(int count, char **words) {
    for (size_t each = 0; each < sizeof stores / sizeof *stores; each++)
        if (count == 2 && strcmp(words[1], stores[each].name) == 0) measure(each);
    return 0;
}
