/* Makes calls on one table, and prints each with its reply or with the reason why it was refused.
   Build: cc -I bindings/c/include bindings/c/examples/first.c dist/x86_64-linux/libyoyoash.a -o first */
#include <yoyoash.h>
#include <stdio.h>

/* Returns how many bytes of a text are in its buffer. */
static int shown(size_t len, size_t size) { return (int)(len < size ? len : size); }

/* Makes a call for process 0, and prints what came of it. */
static void call(yoyoash_store *store, const char *text) {
    char reply[64], why[100];
    size_t len;
    int32_t status = yoyoash_call_text(store, 0, text, reply, sizeof reply, &len);
    if (status == YOYOASH_VALUE) {
        printf("%s -> %.*s%s\n", text, shown(len, sizeof reply), reply, len > sizeof reply ? ".." : "");
        return;
    }
    yoyoash_why(store, why, sizeof why, &len);
    printf("%s -> ** %s: %.*s\n", text, yoyoash_status_text(status), shown(len, sizeof why), why);
}

int main(void) {
    yoyoash_store store = {0};
    if (yoyoash_open(&store, YOYOASH_DEFAULT_PROCESSES, YOYOASH_DEFAULT_TABLES, YOYOASH_DEFAULT_OBJECTS) != YOYOASH_VALUE ||
        yoyoash_spawn(&store, 0) != YOYOASH_VALUE)
        return 1;
    call(&store, "{new,prices,[named_table]}");
    call(&store, "{insert,prices,[{apple,30},{pear,40}]}");
    call(&store, "{update_counter,prices,apple,5}");
    call(&store, "{lookup,prices,apple}");
    call(&store, "{lookup,shops,apple}");
    call(&store, "{lookup_element,prices,apple,0}");
    call(&store, "{lookup,prices,Apple}");
    yoyoash_close(&store);
    return 0;
}
