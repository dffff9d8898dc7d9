/* Inserts objects by text calls, measures the CPU time of each call, and prints that of each doubling and the longest
   ones. A table has four objects a bucket when it doubles its buckets, so the calls after 2^n objects do that.
   Build: cc -O2 -I bindings/c/include bench/pauses.c dist/x86_64-linux/libyoyoash.a -o pauses
   Usage: ./pauses [OBJECTS] */
#include <yoyoash.h>
#include <stdio.h>
#include <stdlib.h>
#include <time.h>

/* How many of the longest calls are printed, and the number of objects at the first doubling that is. */
enum { LONGEST = 8, FIRST_DOUBLING = 65536 };

/* A call, by the number of objects before it, and its CPU time in microseconds. */
struct timed_call { unsigned objects; double microseconds; };

static double cpu_microseconds(void) {
    struct timespec now;
    clock_gettime(CLOCK_THREAD_CPUTIME_ID, &now);
    return (double)now.tv_sec * 1e6 + (double)now.tv_nsec / 1e3;
}

/* Orders calls by their time, the longest first. */
static int compare(const void *one, const void *other) {
    double a = ((const struct timed_call *)one)->microseconds, b = ((const struct timed_call *)other)->microseconds;
    return (a < b) - (a > b);
}

/* Makes a call for process 0, and returns whether it had a reply. */
static int make_call(yoyoash_store *store, const char *text) {
    char reply[16];
    size_t len;
    return yoyoash_call_text(store, 0, text, reply, sizeof reply, &len) == YOYOASH_VALUE;
}

int main(int argc, char **argv) {
    unsigned objects = argc > 1 ? (unsigned)strtoul(argv[1], NULL, 10) : 1000000;
    struct timed_call *calls = calloc(objects, sizeof *calls);
    yoyoash_store store = {0};
    if (!calls || yoyoash_open(&store, YOYOASH_DEFAULT_PROCESSES, YOYOASH_DEFAULT_TABLES, objects) != YOYOASH_VALUE ||
        yoyoash_spawn(&store, 0) != YOYOASH_VALUE || !make_call(&store, "{new,t,[named_table]}"))
        return 1;
    for (unsigned i = 0; i < objects; i++) {
        char text[64];
        snprintf(text, sizeof text, "{insert,t,{%u,1}}", i);
        double began = cpu_microseconds();
        int has_reply = make_call(&store, text);
        calls[i] = (struct timed_call){i, cpu_microseconds() - began};
        if (!has_reply)
            return 1;
    }
    for (unsigned i = FIRST_DOUBLING; i < objects; i *= 2)
        printf("%8.1f us for a doubling to %u buckets\n", calls[i].microseconds, i / 2);
    qsort(calls, objects, sizeof *calls, compare);
    for (unsigned i = 0; i < LONGEST && i < objects; i++)
        printf("%8.1f us with %u objects\n", calls[i].microseconds, calls[i].objects);
    yoyoash_close(&store);
    free(calls);
    return 0;
}
