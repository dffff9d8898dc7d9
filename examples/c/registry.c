/* A registry {Name,Pid,Port} of services. Its owner ends, and the heir gets the table and a message; the entries stay.
   Build: cc -I bindings/c/include examples/c/registry.c dist/x86_64-linux/libyoyoash.a -o registry */
#include <stdio.h>
#include <yoyoash_term.h>

/* The processes, by their numbers in the store. */
enum { KEEPER = 0, STANDBY = 1, MAIL = 2, WEB = 3, PROCESSES = 4 };

static yoyoash_store store;
static yoyoash_term call, reply;

/* Makes the call that was built for a process. Returns the status; after VALUE, `at` is a reader of the reply. */
static int32_t make(uint32_t pid, yoyoash_term_reader *at) {
    int32_t status = yoyoash_term_make(&store, pid, &call, &reply);
    return status == YOYOASH_VALUE && !yoyoash_term_read(at, reply.bytes, reply.len) ? YOYOASH_UNTOLD : status;
}

/* The keeper makes the table {new,[services,[named_table,public,{heir,Standby,take_over}]]}. */
static int32_t make_table(void) {
    yoyoash_term_reader at;
    yoyoash_term_call(&call, "new");
    yoyoash_term_put_atom(&call, "services");
    yoyoash_term_open_list(&call);
    yoyoash_term_put_atom(&call, "named_table");
    yoyoash_term_put_atom(&call, "public");
    yoyoash_term_open_tuple(&call);
    yoyoash_term_put_atom(&call, "heir");
    yoyoash_term_put_pid(&call, STANDBY);
    yoyoash_term_put_atom(&call, "take_over");
    yoyoash_term_close(&call);
    yoyoash_term_close(&call);
    return make(KEEPER, &at);
}

/* A process registers itself under a name. A name is taken once. */
static void enter(uint32_t pid, const char *name, int64_t port) {
    yoyoash_term_reader at;
    int is_new = 0;
    yoyoash_term_call(&call, "insert_new");
    yoyoash_term_put_atom(&call, "services");
    yoyoash_term_open_tuple(&call);
    yoyoash_term_put_string(&call, name);
    yoyoash_term_put_pid(&call, pid);
    yoyoash_term_put_integer(&call, port);
    yoyoash_term_close(&call);
    if (make(pid, &at) == YOYOASH_VALUE) yoyoash_term_get_bool(&at, &is_new);
    printf("%s by process %u: %s\n", name, (unsigned)pid, is_new ? "registered" : "the name is taken");
}

/* Prints the port of a service, or why there is none. */
static void port_of(const char *name) {
    yoyoash_term_reader at;
    int64_t port;
    uint32_t argument;
    yoyoash_term_call(&call, "lookup_element");
    yoyoash_term_put_atom(&call, "services");
    yoyoash_term_put_string(&call, name);
    yoyoash_term_put_integer(&call, 3);
    int32_t status = make(WEB, &at);
    if (status == YOYOASH_VALUE && yoyoash_term_get_integer(&at, &port)) {
        printf("port of %s: %lld\n", name, (long long)port);
        return;
    }
    int32_t reason = yoyoash_reason_last(&store, &argument);
    if (status == YOYOASH_BADARG && reason == YOYOASH_REASON_NO_KEY) printf("port of %s: not registered\n", name);
    else printf("port of %s: %s, reason %d\n", name, yoyoash_status_text(status), (int)reason);
}

/* Prints the messages of the standby: {'ETS-TRANSFER',Table,From,Data} for each table that it got. */
static void receive(void) {
    yoyoash_term_reader at, message;
    const char *table, *data;
    size_t table_len, data_len;
    uint32_t from;
    yoyoash_term_call(&call, "receive");
    if (make(STANDBY, &at) != YOYOASH_VALUE || !yoyoash_term_get_list(&at, &at)) return;
    while (yoyoash_term_get_tuple(&at, &message))
        if (yoyoash_term_get_word(&message, "ETS-TRANSFER") && yoyoash_term_get_atom(&message, &table, &table_len) &&
            yoyoash_term_get_pid(&message, &from) && yoyoash_term_get_atom(&message, &data, &data_len))
            printf("process %d got %.*s from process %u: %.*s\n", STANDBY, (int)table_len, table, (unsigned)from, (int)data_len, data);
}

int main(void) {
    if (yoyoash_open(&store, YOYOASH_DEFAULT_PROCESSES, YOYOASH_DEFAULT_TABLES, YOYOASH_DEFAULT_OBJECTS) != YOYOASH_VALUE) return 1;
    for (uint32_t pid = 0; pid < PROCESSES; pid++)
        if (yoyoash_spawn(&store, pid) != YOYOASH_VALUE) return 1;
    if (make_table() != YOYOASH_VALUE) return 1;
    enter(MAIL, "mail", 25);
    enter(WEB, "web", 80);
    enter(WEB, "mail", 2525);
    if (yoyoash_exit(&store, KEEPER) != YOYOASH_VALUE) return 1;
    receive();
    port_of("mail");
    port_of("ftp");
    yoyoash_exit(&store, STANDBY);
    port_of("mail");
    yoyoash_term_free(&call);
    yoyoash_term_free(&reply);
    yoyoash_close(&store);
    return 0;
}
