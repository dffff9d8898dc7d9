/* Tests yoyoash_term.h: the bytes that it builds, its faults, what it reads from replies of the store, and the numbers of reasons.
   Reads texts of reasons from standard input, one a line: each must have a number, and this number the same text. */
#include <stdio.h>
#include <stdlib.h>
#include <yoyoash_term.h>

static yoyoash_store store;
static yoyoash_term call, reply;
static yoyoash_term_reader at;

static void check(int holds, const char *what) {
    if (holds) return;
    fprintf(stderr, "term: %s: fault %d, %zu bytes\n", what, (int)call.fault, call.len);
    exit(1);
}

/* Checks the bytes of the term that was built. */
static void built(const char *bytes, size_t len, const char *what) {
    check(yoyoash_term_end(&call) == YOYOASH_TERM_WELL && call.len == len && memcmp(call.bytes, bytes, len) == 0, what);
    check(yoyoash_term_end(&call) == YOYOASH_TERM_WELL && call.len == len, "to end it again");
}
#define BUILT(literal) built(literal, sizeof(literal) - 1, #literal)

/* Makes the call that was built, which the store accepts. */
static void make(void) {
    check(yoyoash_term_make(&store, 0, &call, &reply) == YOYOASH_VALUE, "a call that is made");
    check(yoyoash_term_read(&at, reply.bytes, reply.len), "a reply that is read");
}

static void begin(void) { yoyoash_term_begin(&call); }

static void on(const char *name, const char *table) { yoyoash_term_call(&call, name), yoyoash_term_put_atom(&call, table); }

static void try_bytes(void) {
    begin(), yoyoash_term_put_integer(&call, 255), BUILT("\x83\x61\xff");
    begin(), yoyoash_term_put_integer(&call, -1), BUILT("\x83\x62\xff\xff\xff\xff");
    begin(), yoyoash_term_put_integer(&call, 256), BUILT("\x83\x62\0\0\1\0");
    begin(), yoyoash_term_put_integer(&call, INT64_C(1) << 31), BUILT("\x83n\4\0\0\0\0\x80");
    begin(), yoyoash_term_put_integer(&call, INT64_MIN), BUILT("\x83n\x08\1\0\0\0\0\0\0\0\x80");
    begin(), yoyoash_term_put_integer128(&call, 0, UINT64_MAX), BUILT("\x83n\x08\0\xff\xff\xff\xff\xff\xff\xff\xff");
    begin(), yoyoash_term_put_integer128(&call, -1, 0), BUILT("\x83n\x09\1\0\0\0\0\0\0\0\0\1");
    begin(), yoyoash_term_put_integer128(&call, INT64_MIN, 0), BUILT("\x83n\x10\1\0\0\0\0\0\0\0\0\0\0\0\0\0\0\0\x80");
    begin(), yoyoash_term_put_integer128(&call, -1, UINT64_MAX), BUILT("\x83\x62\xff\xff\xff\xff");
    begin(), yoyoash_term_put_atom(&call, "'a'"), BUILT("\x83w\3'a'");
    begin(), yoyoash_term_put_binary(&call, "\0}", 2), BUILT("\x83m\0\0\0\2\0}");
    begin(), yoyoash_term_put_string(&call, ""), BUILT("\x83m\0\0\0\0");
    begin(), yoyoash_term_put_pid(&call, 258), BUILT("\x83Xw\x0dnonode@nohost\0\0\1\2\0\0\0\0\0\0\0\0");
    begin(), yoyoash_term_put_table(&call, 3), BUILT("\x83Z\0\1w\x0dnonode@nohost\0\0\0\0\0\0\0\3");
    begin(), yoyoash_term_open_tuple(&call), yoyoash_term_close(&call), BUILT("\x83h\0");
    begin(), yoyoash_term_open_list(&call), yoyoash_term_close(&call), BUILT("\x83j");
    yoyoash_term_call(&call, "receive"), BUILT("\x83h\2w\7receivej");
    yoyoash_term_call(&call, "info"), yoyoash_term_put_bool(&call, 0), BUILT("\x83h\2w\4infol\0\0\0\1w\5falsej");
}

/* Checks that a call that was not built is not made, and that its reason and its empty reply are its own. The call before it had others. */
static void refused(int32_t status, int32_t reason) {
    char out[8];
    size_t len;
    uint32_t argument = 7;
    reply.len = 1;
    check(yoyoash_call_text(&store, 0, "{lookup,none,a}", out, sizeof out, &len) == YOYOASH_BADARG, "a refusal before it");
    check(yoyoash_term_make(&store, 0, &call, &reply) == status && reply.len == 0, "a call with a fault is not made");
    check(yoyoash_reason_last(&store, &argument) == reason && argument == 0, "the reason of a call with a fault");
}

/* Checks that a fault comes, that it stays, and that it has a reason. */
static void faulty(int32_t fault, const char *what) {
    int32_t reason = fault == YOYOASH_TERM_BAD_ATOM ? YOYOASH_REASON_BAD_ATOM : fault == YOYOASH_TERM_TOO_DEEP ? YOYOASH_REASON_TOO_DEEP : YOYOASH_REASON_TRUNCATED;
    yoyoash_term_put_atom(&call, "later");
    check(yoyoash_term_end(&call) == fault && yoyoash_term_end(&call) == fault, what);
    refused(YOYOASH_SYNTAX, reason);
}

static void try_faults(void) {
    char longer[257];
    memset(longer, 'a', sizeof longer - 1), longer[256] = 0;
    yoyoash_term_call(&call, "info"), yoyoash_term_put_atom(&call, longer), faulty(YOYOASH_TERM_BAD_ATOM, "256 characters");
    longer[255] = 0;
    begin(), yoyoash_term_put_atom(&call, longer), check(yoyoash_term_end(&call) == YOYOASH_TERM_WELL, "255 characters");
    yoyoash_term_call(&call, "info"), yoyoash_term_put_atom(&call, "\xc3\xa4"), faulty(YOYOASH_TERM_BAD_ATOM, "not ASCII");
    yoyoash_term_call(&call, "inf\n"), faulty(YOYOASH_TERM_BAD_ATOM, "a name of a call");
    yoyoash_term_call(&call, "info"), yoyoash_term_close(&call), faulty(YOYOASH_TERM_UNBALANCED, "a close too many");
    yoyoash_term_call(&call, "info"), yoyoash_term_open_list(&call), faulty(YOYOASH_TERM_UNBALANCED, "a close too few");
    begin(), yoyoash_term_put_bool(&call, 1), faulty(YOYOASH_TERM_UNBALANCED, "two terms");
    begin(), check(yoyoash_term_end(&call) == YOYOASH_TERM_UNBALANCED, "no term");
    yoyoash_term_clear(&call), yoyoash_term_put_bool(&call, 1), faulty(YOYOASH_TERM_UNBALANCED, "nothing was begun");
    yoyoash_term_call(&call, "info"), yoyoash_term_close(&call), yoyoash_term_open_list(&call);
    faulty(YOYOASH_TERM_UNBALANCED, "the list of arguments is closed");
    yoyoash_term_call(&call, "insert");
    for (int level = 0; level < 126; level++) yoyoash_term_open_list(&call);
    faulty(YOYOASH_TERM_TOO_DEEP, "129 levels");
    yoyoash_term_call(&call, "info"), yoyoash_term_end(&call), faulty(YOYOASH_TERM_UNBALANCED, "a term after the end");
    yoyoash_term_call(&call, "info"), yoyoash_term_fail(&call, YOYOASH_TERM_NO_MEMORY), refused(YOYOASH_NO_MEMORY, YOYOASH_REASON_TRUNCATED);
}

/* Makes a call with an argument of 126 levels, the most that the store takes, and one with tuples of 255 and 256 elements. */
static void try_largest(void) {
    yoyoash_term_reader row;
    on("member", "t");
    for (int level = 0; level < 126; level++) yoyoash_term_open_list(&call);
    for (int level = 0; level < 126; level++) yoyoash_term_close(&call);
    make();
    for (size_t count = 255; count <= 256; count++) {
        on("lookup_element", "t"), yoyoash_term_put_integer(&call, 0), yoyoash_term_put_integer(&call, 2), yoyoash_term_open_tuple(&call);
        for (size_t element = 0; element < count; element++) yoyoash_term_put_string(&call, "x");
        yoyoash_term_close(&call), make();
        check(yoyoash_term_get_tuple(&at, &row) && row.left == count, "a tuple of 255 or 256 elements");
    }
}

/* Builds the same call in buffers of all sizes. Only one that is large enough has no fault, and no byte after a buffer changes. */
static void try_buffers(void) {
    uint8_t buffer[64];
    for (size_t size = 0; size < sizeof buffer; size++) {
        yoyoash_term small;
        memset(buffer, 0xee, sizeof buffer);
        yoyoash_term_use(&small, buffer, size);
        yoyoash_term_call(&small, "lookup");
        yoyoash_term_put_atom(&small, "prices");
        yoyoash_term_open_list(&small);
        yoyoash_term_close(&small);
        check(yoyoash_term_end(&small) == (size < 29 ? YOYOASH_TERM_NO_ROOM : YOYOASH_TERM_WELL), "a buffer of the caller");
        for (size_t place = size; place < sizeof buffer; place++) check(buffer[place] == 0xee, "a byte after the buffer");
        yoyoash_term_free(&small);
    }
}

static void try_integers(void) {
    static const struct { int64_t high; uint64_t low; } cases[] = {
        {0, 0}, {0, 255}, {0, 256}, {-1, UINT64_MAX}, {0, INT32_MAX}, {0, UINT64_C(1) << 31}, {-1, 0 - (UINT64_C(1) << 31)},
        {0, INT64_MAX}, {-1, UINT64_C(1) << 63}, {0, UINT64_C(1) << 63}, {-1, INT64_MAX}, {1, 0}, {-1, 0}, {-2, 1}, {INT64_MAX, UINT64_MAX}, {INT64_MIN, 0}};
    for (size_t each = 0; each < sizeof cases / sizeof *cases; each++) {
        int64_t high = 7, number = 7, low_half = (int64_t)cases[each].low;
        uint64_t low = 7;
        int is_small = cases[each].high == (low_half < 0 ? -1 : 0);
        on("insert", "t"), yoyoash_term_open_tuple(&call), yoyoash_term_put_atom(&call, "n");
        yoyoash_term_put_integer128(&call, cases[each].high, cases[each].low), yoyoash_term_close(&call), make();
        on("lookup_element", "t"), yoyoash_term_put_atom(&call, "n"), yoyoash_term_put_integer(&call, 2), make();
        check(yoyoash_term_get_integer(&at, &number) == is_small && (number == low_half || !is_small), "an integer of 64 bits");
        check(is_small || at.left == 1, "an integer that is too large stays");
        yoyoash_term_read(&at, reply.bytes, reply.len);
        check(yoyoash_term_get_integer128(&at, &high, &low) && high == cases[each].high && low == cases[each].low && at.left == 0, "an integer of 128 bits");
    }
    check(!yoyoash_term_read(&at, "\x83n\x11", 3), "17 digits that are missing");
    check(yoyoash_term_read(&at, "\x83n\x10\0\0\0\0\0\0\0\0\0\0\0\0\0\0\0\0\x80", 20), "2^127 is a term");
    int64_t high;
    uint64_t low;
    check(!yoyoash_term_get_integer128(&at, &high, &low) && at.left == 1, "2^127 is out of range");
}

/* Writes a table of all types, and reads it back. */
static void try_replies(void) {
    yoyoash_term_reader object, row;
    const uint8_t *bytes;
    const char *name;
    size_t len;
    uint32_t number;
    int64_t code = 0, sum = 0;
    int flag;
    on("insert", "t"), yoyoash_term_open_tuple(&call), yoyoash_term_put_string(&call, "},{exit,0"), yoyoash_term_put_pid(&call, 70000);
    yoyoash_term_put_table(&call, 5), yoyoash_term_open_list(&call);
    for (int element = 0; element < 3; element++) yoyoash_term_put_integer(&call, element + 253);
    yoyoash_term_close(&call), yoyoash_term_open_list(&call), yoyoash_term_put_integer(&call, 9), yoyoash_term_close(&call);
    yoyoash_term_open_tuple(&call);
    for (int element = 0; element < 300; element++) yoyoash_term_put_integer(&call, element);
    yoyoash_term_close(&call), yoyoash_term_put_atom(&call, "last"), yoyoash_term_close(&call), make();
    check(yoyoash_term_get_bool(&at, &flag) && flag == 1 && at.left == 0 && !yoyoash_term_skip(&at), "true, and nothing after it");
    on("lookup", "t"), yoyoash_term_put_string(&call, "},{exit,0"), make();
    check(!yoyoash_term_get_tuple(&at, &object) && yoyoash_term_get_list(&at, &at) && at.left == 1, "a list of one object");
    check(yoyoash_term_get_tuple(&at, &object) && object.left == 7 && at.left == 0 && yoyoash_term_type_of(&at) == YOYOASH_TERM_NONE, "an object");
    check(!yoyoash_term_get_pid(&object, &number) && yoyoash_term_get_binary(&object, &bytes, &len) && len == 9 && memcmp(bytes, "},{exit,0", 9) == 0, "a binary");
    check(!yoyoash_term_get_table(&object, &number) && yoyoash_term_get_pid(&object, &number) && number == 70000, "a pid");
    check(yoyoash_term_get_table(&object, &number) && number == 5, "a table");
    check(yoyoash_term_get_list(&object, &row) && row.left == 3 && yoyoash_term_skip(&row) && yoyoash_term_get_integer(&row, &code) && code == 254, "three integers");
    check(yoyoash_term_get_list(&object, &row) && row.left == 1 && yoyoash_term_type_of(&row) == YOYOASH_TERM_INTEGER, "a list of a byte");
    yoyoash_term_begin(&call), check(yoyoash_term_copy(&row, &call) && row.left == 0 && !yoyoash_term_copy(&row, &call), "a byte is copied"), BUILT("\x83\x61\x09");
    check(yoyoash_term_get_tuple(&object, &row) && row.left == 300, "300 elements");
    while (yoyoash_term_get_integer(&row, &code)) sum += code;
    check(sum == 44850 && row.left == 0, "their sum");
    check(!yoyoash_term_get_word(&object, "las") && !yoyoash_term_get_word(&object, "lasts"), "another word");
    check(yoyoash_term_get_atom(&object, &name, &len) && len == 4 && memcmp(name, "last", 4) == 0, "an atom");
}

/* Visits all keys by `first` and `next`, whose argument is a copy of the key. */
static void try_keys(void) {
    int keys = 0;
    on("insert", "t"), yoyoash_term_open_tuple(&call), yoyoash_term_open_list(&call), yoyoash_term_put_integer(&call, 1);
    yoyoash_term_close(&call), yoyoash_term_close(&call), make();
    for (on("first", "t"), make(); !yoyoash_term_get_word(&at, "$end_of_table"); keys++)
        on("next", "t"), check(yoyoash_term_copy(&at, &call), "a key is copied"), make();
    check(keys == 3, "three keys");
}

/* Makes a call whose reply is longer than any buffer before, and into a buffer that is too small for it. */
static void try_long(void) {
    static char text[200000];
    uint8_t little[300];
    yoyoash_term small;
    const uint8_t *bytes;
    size_t len;
    memset(text, 'x', sizeof text - 1);
    on("insert", "t"), yoyoash_term_open_tuple(&call), yoyoash_term_put_atom(&call, "long"), yoyoash_term_put_string(&call, text), yoyoash_term_close(&call), make();
    on("lookup_element", "t"), yoyoash_term_put_atom(&call, "long"), yoyoash_term_put_integer(&call, 2), make();
    check(yoyoash_term_get_binary(&at, &bytes, &len) && len == 199999 && memcmp(bytes, text, len) == 0, "a reply of 200,005 bytes");
    yoyoash_term_use(&small, little, sizeof little);
    check(yoyoash_term_make(&store, 0, &call, &small) == YOYOASH_UNTOLD && small.len == 0, "a reply that is too long for its buffer");
}

static void try_reasons(void) {
    char line[200];
    uint32_t argument;
    int known = 0;
    on("lookup", "none"), yoyoash_term_put_atom(&call, "a");
    check(yoyoash_term_make(&store, 0, &call, &reply) == YOYOASH_BADARG && reply.len == 0, "a refusal has no reply");
    check(yoyoash_reason_last(&store, &argument) == YOYOASH_REASON_NO_TABLE && argument == 1, "argument 1: no such table");
    yoyoash_term_call(&call, "receive"), make();
    check(yoyoash_reason_last(&store, &argument) == YOYOASH_REASON_NONE && argument == 0, "no refusal, no reason");
    check(yoyoash_term_make(&store, 99, &call, &reply) == YOYOASH_NO_PROCESS, "a process that does not exist");
    check(yoyoash_reason_last(&store, &argument) == YOYOASH_REASON_NO_PROCESS && argument == 0, "its reason");
    check(yoyoash_reason_of("argument 12: unexpected ';'", 27, &argument) == YOYOASH_REASON_UNEXPECTED && argument == 12, "a reason by its beginning");
    check(yoyoash_reason_of("argument 1", 10, &argument) == YOYOASH_REASON_OTHER && yoyoash_reason_of("argument 1:", 11, &argument) == YOYOASH_REASON_OTHER, "a reason that ends early");
    check(yoyoash_reason_of("no such tables", 14, &argument) == YOYOASH_REASON_OTHER && yoyoash_reason_of("no such tabl", 12, &argument) == YOYOASH_REASON_OTHER, "another reason");
    for (; fgets(line, sizeof line, stdin); known++) {
        size_t len = strcspn(line, "\n");
        int32_t number = yoyoash_reason_of(line, len, &argument);
        check(number != YOYOASH_REASON_OTHER && yoyoash_reason_is(line, len, yoyoash_reason_text(number)), line);
    }
    check(known > 40, "the texts of reasons on standard input");
    check(!yoyoash_reason_text(999), "a number without a text");
}

int main(void) {
    check(yoyoash_open(&store, 100, 100, 1000) == YOYOASH_VALUE && yoyoash_spawn(&store, 0) == YOYOASH_VALUE, "a store");
    on("new", "t"), yoyoash_term_open_list(&call), yoyoash_term_put_atom(&call, "named_table"), yoyoash_term_close(&call), make();
    check(yoyoash_term_get_word(&at, "t"), "the name of the table");
    try_bytes(), try_faults(), try_buffers(), try_largest(), try_integers(), try_replies(), try_keys(), try_long(), try_reasons();
    yoyoash_term_free(&call), yoyoash_term_free(&reply);
    yoyoash_close(&store);
    return 0;
}
