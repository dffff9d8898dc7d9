/* Measures the stack that calls take with the deepest terms that a call may have, in both formats: a thread fills its stack with a
   pattern, makes a call, and looks how much of the pattern is gone. No call may need more than YOYOASH_STACK bytes. */
#define _GNU_SOURCE
#include <pthread.h>
#include <stdio.h>
#include <stdlib.h>
#include <yoyoash.h>

/* Texts of FEWEST to MOST levels are tried: those of DEEPEST are calls, and those of more are refused. The stack of a thread has STACK
   bytes, and a buffer SIZE. */
enum { FEWEST = 126, DEEPEST = 128, MOST = 129, STACK = 1 << 19, SIZE = 1 << 16, PATTERN = 0x5a };

/* How a call nests a term: what opens a level, the innermost term, and what closes a level. */
typedef struct nesting {
    const char *open, *core, *close;
} nesting;

static const nesting NESTINGS[] = {{"[", "a", "]"}, {"{", "a", "}"}, {"[", "'$1'", "]"}, {"{", "'$1'", "}"}, {"[{1},", "a", "]"}};
static const nesting EXPRESSIONS[] = {{"{'not',", "true", "}"}, {"{{", "'$_'", "}}"}, {"[", "'$_'", "]"}, {"{'andalso',true,", "true", "}"}, {"{hd,[", "1", "]}"}};

/* The calls, in which % is a nested term. */
static const char *const CALLS[] = {
    "{insert,t,{k,%}}", "{insert,t,{%,1}}", "{insert,t,[{%,1},{l,%}]}", "{insert,b,{k,%}}", "{insert,b,{k,%}}", "{insert_new,t,{%,1}}", "{insert_new,t,{n,%}}",
    "{lookup,t,%}", "{lookup,t,k}", "{lookup,b,k}", "{lookup_element,t,k,2}", "{lookup_element,t,none,2,%}", "{member,t,%}", "{first,t}", "{next,t,%}",
    "{first_lookup,t}", "{next_lookup,t,%}", "{tab2list,t}", "{tab2list,b}", "{update_element,t,k,{2,%}}", "{update_element,t,m,{2,%},{m,%}}",
    "{update_counter,t,c,{2,1},{c,1,%}}", "{match,t,%}", "{match,t,{'_',%}}", "{match,t,{k,'$1'}}", "{match_object,t,{'$1',%}}", "{match_object,t,'_'}",
    "{select,t,[{{'$1',%},[],['$1']}]}", "{select,t,[{'_',[],['$_']}]}", "{select_count,t,[{{'_',%},[],[true]}]}", "{match_delete,t,{'_',%,z}}",
    "{give_away,g,<0.1.0>,%}", "{new,h,[{heir,<0.1.0>,%}]}", "{setopts,t,{heir,<0.1.0>,%}}", "{delete_object,b,{k,%}}", "{take,t,%}", "{delete,t,%}", "{no_such_call,%}",
    "{whereis,%}", "{info,t,%}"};
/* The calls with an expression of a match specification. */
static const char *const SELECTIONS[] = {"{select,t,[{{'$1','_'},[%],['$_']}]}", "{select,t,[{{'$1','_'},[],[%]}]}", "{select_count,t,[{'_',[%],[true]}]}",
    "{select_delete,t,[{'_',[],[%]}]}"};

static yoyoash_store store;
static uint8_t bytes[SIZE], out[SIZE];
static char text[SIZE];
static size_t bytes_len, len;
static int32_t status;
static char *stack;
static size_t most;

static void fail(const char *what) {
    fprintf(stderr, "stack: %s: %s\n", what, text);
    exit(1);
}

/* Writes a call, with a nested term of this depth in place of each %. */
static void write_call(const char *form, const nesting *each, int depth) {
    char *to = text;
    for (; *form; form++) {
        if (*form != '%') {
            *to++ = *form;
            continue;
        }
        for (int level = 0; level < depth; level++) to = stpcpy(to, each->open);
        to = stpcpy(to, each->core);
        for (int level = 0; level < depth; level++) to = stpcpy(to, each->close);
    }
    *to = 0;
}

/* Returns how many levels the text has: the most brackets that are open, and the term in them. */
static int levels(void) {
    int open = 0, deepest = 0;
    for (const char *at = text; *at; at++) {
        open += (*at == '{' || *at == '[') - (*at == '}' || *at == ']');
        if (open > deepest) deepest = open;
    }
    return deepest + 1;
}

static void put(const void *from, size_t count) {
    memcpy(bytes + bytes_len, from, count);
    bytes_len += count;
}

/* Appends a number of four bytes, the high one first. */
static void put_number(size_t number) {
    uint8_t four[] = {number >> 24, number >> 16, number >> 8, number};
    put(four, 4);
}

static const char *put_term(const char *from);

/* Appends the terms up to a closing bracket, and writes their number after the tag. */
static const char *put_terms(const char *from, uint8_t tag) {
    size_t place = bytes_len, count = 0;
    put("", 1);
    put_number(0);
    for (; *from != ']' && *from != '}'; from += *from == ',') {
        from = put_term(from);
        count++;
    }
    size_t end = bytes_len;
    bytes[place] = tag;
    bytes_len = place + 1;
    put_number(count);
    bytes_len = end;
    return from + 1;
}

/* Appends a term of a text in the external format, and returns where it ends: a list, a tuple, <0.1.0>, a digit or an atom. */
static const char *put_term(const char *from) {
    if (*from == '[' && from[1] == ']') return put("j", 1), from + 2;
    if (*from == '[') return from = put_terms(from + 1, 'l'), put("j", 1), from;
    if (*from == '{') return put_terms(from + 1, 'i');
    if (*from == '<') return put("Xw\15nonode@nohost\0\0\0\1\0\0\0\0\0\0\0\0", 28), from + 7;
    if (*from >= '0' && *from <= '9') return put("a", 1), put((uint8_t[]){*from - '0'}, 1), from + 1;
    int quotes = *from == '\'';
    size_t count = quotes ? strcspn(from + 1, "'") : strcspn(from, ",]}");
    put("w", 1);
    put((uint8_t[]){count}, 1);
    put(from + quotes, count);
    return from + count + 2 * quotes;
}

/* Writes the call of the text in the external format: the call's name, and the list of its arguments. */
static void write_bytes(void) {
    bytes_len = 0;
    put("\x83h\2", 3);
    put_terms(put_term(text + 1) + 1, 'l');
    put("j", 1);
}

static void *make_call(void *is_external) {
    status = is_external ? yoyoash_call_external(&store, 0, bytes, bytes_len, out, sizeof out, &len)
                         : yoyoash_call_text(&store, 0, text, (char *)out, sizeof out, &len);
    return NULL;
}

/* Makes the call in a thread, and looks how much of its stack was written. A call in bytes has one level more, the list of arguments. */
static void measure(void *is_external) {
    pthread_t thread;
    pthread_attr_t attributes;
    memset(stack, PATTERN, STACK);
    pthread_attr_init(&attributes);
    if (pthread_attr_setstack(&attributes, stack, STACK) != 0 || pthread_create(&thread, &attributes, make_call, is_external) != 0) fail("no thread");
    pthread_join(thread, NULL);
    pthread_attr_destroy(&attributes);
    if ((status == YOYOASH_SYNTAX) != (levels() + (is_external != NULL) > DEEPEST)) fail("another depth is refused");
    size_t unused = 0;
    while (unused < STACK && stack[unused] == PATTERN) unused++;
    if (STACK - unused > most) most = STACK - unused;
    if (STACK - unused > YOYOASH_STACK) fail("a call needs more stack than YOYOASH_STACK");
}

static void make(const char *form) {
    write_call(form, &NESTINGS[0], 1);
    if (yoyoash_call_text(&store, 0, text, (char *)out, sizeof out, &len) != YOYOASH_VALUE) fail("refused");
}

/* Makes a call with all depths near the deepest one. The tables have deep objects of the calls before. */
static void try_depths(const char *form, const nesting *each) {
    for (int depth = 0; depth <= MOST; depth++) {
        write_call(form, each, depth);
        if (levels() < FEWEST && depth > 0) continue;
        if (levels() > MOST) break;
        write_bytes();
        measure(NULL);
        measure(&store);
        if (!strchr(form, '%')) break;
    }
    make("{receive}");
}

static void open_store(void) {
    if (yoyoash_open(&store, 2, YOYOASH_MAX_TABLES, 1000) != YOYOASH_VALUE || yoyoash_spawn(&store, 0) != YOYOASH_VALUE || yoyoash_spawn(&store, 1) != YOYOASH_VALUE)
        fail("open");
    make("{new,t,[named_table,public]}");
    make("{new,b,[named_table,public,bag]}");
}

int main(void) {
    if (posix_memalign((void **)&stack, 4096, STACK) != 0) return 1;
    open_store();
    for (size_t form = 0; form < sizeof CALLS / sizeof *CALLS; form++)
        for (size_t each = 0; each < sizeof NESTINGS / sizeof *NESTINGS; each++) try_depths(CALLS[form], &NESTINGS[each]);
    for (size_t form = 0; form < sizeof SELECTIONS / sizeof *SELECTIONS; form++)
        for (size_t each = 0; each < sizeof EXPRESSIONS / sizeof *EXPRESSIONS; each++) try_depths(SELECTIONS[form], &EXPRESSIONS[each]);
    yoyoash_close(&store);
    printf("stack: the deepest terms need %zu bytes\n", most);
    return 0;
}
