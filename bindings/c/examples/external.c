/* Makes calls in Erlang's External Term Format, without texts. A call is `{Name,Arguments}`, as term_to_binary writes it.
   Build: cc -I bindings/c/include bindings/c/examples/external.c dist/x86_64-linux/libyoyoash.a -o external */
#include <yoyoash.h>
#include <stdio.h>

/* The tags of the format that are used here. */
enum { SMALL_INTEGER = 97, SMALL_TUPLE = 104, NIL = 106, LIST = 108, ATOM = 119, VERSION = 131 };

/* Bytes that are written one after another. */
typedef struct bytes {
    uint8_t at[256];
    size_t len;
} bytes;

static void put(bytes *to, uint8_t byte) { to->at[to->len++] = byte; }

static void put_atom(bytes *to, const char *name) {
    put(to, ATOM);
    put(to, (uint8_t)strlen(name));
    while (*name) put(to, (uint8_t)*name++);
}

static void put_small(bytes *to, uint8_t number) {
    put(to, SMALL_INTEGER);
    put(to, number);
}

static void put_tuple(bytes *to, uint8_t count) {
    put(to, SMALL_TUPLE);
    put(to, count);
}

/* Begins a call. Its arguments follow, and then NIL. */
static void put_call(bytes *to, const char *name, uint8_t arguments) {
    to->len = 0;
    put(to, VERSION);
    put_tuple(to, 2);
    put_atom(to, name);
    put(to, LIST);
    for (int place = 0; place < 3; place++) put(to, 0);
    put(to, arguments);
}

/* Makes a call for process 0, and prints the bytes of its reply or the reason why it was refused. */
static void call(yoyoash_store *store, const bytes *made) {
    uint8_t reply[64];
    char why[100];
    size_t len;
    int32_t status = yoyoash_call_external(store, 0, made->at, made->len, reply, sizeof reply, &len);
    if (status == YOYOASH_VALUE) {
        for (size_t place = 0; place < len && place < sizeof reply; place++) printf("%02x", reply[place]);
        puts(len > sizeof reply ? ".." : "");
        return;
    }
    yoyoash_why(store, why, sizeof why, &len);
    printf("** %s: %.*s\n", yoyoash_status_text(status), (int)(len < sizeof why ? len : sizeof why), why);
}

int main(void) {
    yoyoash_store store = {0};
    char reply[64];
    size_t len;
    bytes made;
    if (yoyoash_open(&store, YOYOASH_DEFAULT_PROCESSES, YOYOASH_DEFAULT_TABLES, YOYOASH_DEFAULT_OBJECTS) != YOYOASH_VALUE ||
        yoyoash_spawn(&store, 0) != YOYOASH_VALUE ||
        yoyoash_call_text(&store, 0, "{new,prices,[named_table]}", reply, sizeof reply, &len) != YOYOASH_VALUE)
        return 1;

    put_call(&made, "insert", 2);
    put_atom(&made, "prices");
    put_tuple(&made, 2);
    put_atom(&made, "apple");
    put_small(&made, 30);
    put(&made, NIL);
    call(&store, &made);

    put_call(&made, "lookup_element", 3);
    put_atom(&made, "prices");
    put_atom(&made, "apple");
    put_small(&made, 2);
    put(&made, NIL);
    call(&store, &made);

    put_call(&made, "lookup", 2);
    put_atom(&made, "shops");
    put_atom(&made, "apple");
    put(&made, NIL);
    call(&store, &made);

    made.len -= 1;
    call(&store, &made);
    yoyoash_close(&store);
    return 0;
}
