/* A cache of sessions {Name,User,End}: a match specification deletes those that have ended. Times are seconds, which the program
   gives itself.
   Build: cc -I bindings/c/include examples/c/session_cache.c dist/x86_64-linux/libyoyoash.a -o session_cache */
#include <stdio.h>
#include <yoyoash_term.h>

static yoyoash_store store;
static yoyoash_term call, reply;

/* Makes the call that was built, and returns a reader of its reply. Ends the program if the call is refused. */
static yoyoash_term_reader made(void) {
    yoyoash_term_reader at;
    uint32_t argument;
    int32_t status = yoyoash_term_make(&store, 0, &call, &reply);
    if (status == YOYOASH_VALUE && yoyoash_term_read(&at, reply.bytes, reply.len)) return at;
    fprintf(stderr, "session_cache: %s, reason %d\n", yoyoash_status_text(status), (int)yoyoash_reason_last(&store, &argument));
    exit(1);
}

/* Begins a call on the table of sessions. */
static void on_sessions(const char *name) {
    yoyoash_term_call(&call, name);
    yoyoash_term_put_atom(&call, "sessions");
}

static void make_table(void) {
    on_sessions("new");
    yoyoash_term_open_list(&call);
    yoyoash_term_put_atom(&call, "named_table");
    yoyoash_term_close(&call);
    made();
}

/* Begins a session. Whatever `name` and `user` hold, they stay binaries. */
static void begin(const char *name, const char *user, int64_t end) {
    on_sessions("insert");
    yoyoash_term_open_tuple(&call);
    yoyoash_term_put_string(&call, name);
    yoyoash_term_put_string(&call, user);
    yoyoash_term_put_integer(&call, end);
    yoyoash_term_close(&call);
    made();
}

/* Prints the user and the end of a session, if it exists. */
static void show(const char *name) {
    on_sessions("lookup");
    yoyoash_term_put_string(&call, name);
    yoyoash_term_reader at = made(), object;
    const uint8_t *user;
    size_t len;
    int64_t end;
    if (yoyoash_term_get_list(&at, &at) && yoyoash_term_get_tuple(&at, &object) && yoyoash_term_skip(&object) &&
        yoyoash_term_get_binary(&object, &user, &len) && yoyoash_term_get_integer(&object, &end))
        printf("%s: user %.*s, ends at %lld\n", name, (int)len, (const char *)user, (long long)end);
    else
        printf("%s: no session\n", name);
}

/* Deletes the sessions that ended before `now` by [{{'_','_','$1'},[{'<','$1',now}],[true]}]. Returns their number. */
static int64_t expire(int64_t now) {
    on_sessions("select_delete");
    yoyoash_term_open_list(&call);
    yoyoash_term_open_tuple(&call);
    yoyoash_term_open_tuple(&call);
    yoyoash_term_put_atom(&call, "_");
    yoyoash_term_put_atom(&call, "_");
    yoyoash_term_put_atom(&call, "$1");
    yoyoash_term_close(&call);
    yoyoash_term_open_list(&call);
    yoyoash_term_open_tuple(&call);
    yoyoash_term_put_atom(&call, "<");
    yoyoash_term_put_atom(&call, "$1");
    yoyoash_term_put_integer(&call, now);
    yoyoash_term_close(&call);
    yoyoash_term_close(&call);
    yoyoash_term_open_list(&call);
    yoyoash_term_put_bool(&call, 1);
    yoyoash_term_close(&call);
    yoyoash_term_close(&call);
    yoyoash_term_close(&call);
    yoyoash_term_reader at = made();
    int64_t deleted = 0;
    yoyoash_term_get_integer(&at, &deleted);
    return deleted;
}

int main(void) {
    if (yoyoash_open(&store, YOYOASH_DEFAULT_PROCESSES, YOYOASH_DEFAULT_TABLES, YOYOASH_DEFAULT_OBJECTS) != YOYOASH_VALUE ||
        yoyoash_spawn(&store, 0) != YOYOASH_VALUE)
        return 1;
    make_table();
    begin("s1", "anna", 160);
    begin("s2", "ben", 170);
    begin("s3", "}),exit(", 300);
    show("s1");
    show("s3");
    printf("expired at 165: %lld\n", (long long)expire(165));
    show("s1");
    show("s2");
    yoyoash_term_free(&call);
    yoyoash_term_free(&reply);
    yoyoash_close(&store);
    return 0;
}
