/* Tests calls in Erlang's External Term Format: their statuses, their replies, where a fault is, and buffers that are too small. */
#include <stdio.h>
#include <stdlib.h>
#include <yoyoash.h>

/* The bytes of a literal, without the NUL after them. */
#define BYTES(literal) (const uint8_t *)(literal), sizeof(literal) - 1
#define HEAD "\x83h\2w"
#define LOOKUP_A HEAD "\6lookupl\0\0\0\2w\1tw\1aj"

static yoyoash_store store;
static uint8_t out[64];
static size_t len;

static void check(int holds, const char *what) {
    if (holds) return;
    char why[100];
    size_t why_len;
    yoyoash_why(&store, why, sizeof why, &why_len);
    fprintf(stderr, "external: %s: length %zu, reason '%.*s'\n", what, len, (int)why_len, why);
    exit(1);
}

/* Makes a call for process 0 with the first bytes of `out`, and checks the status. */
static void call(int32_t status, const uint8_t *bytes, size_t bytes_len, size_t out_size, const char *what) {
    memset(out, 0xee, sizeof out);
    len = 999;
    check(yoyoash_call_external(&store, 0, bytes, bytes_len, out, out_size, &len) == status, what);
}

/* Checks what was written, and that nothing was written after it. */
static void expect(const uint8_t *bytes, size_t bytes_len, size_t known, const char *what) {
    check(len == bytes_len && memcmp(out, bytes, known) == 0, what);
    for (size_t place = known; place < sizeof out; place++) check(out[place] == 0xee, what);
}

static void reply(const uint8_t *call_bytes, size_t call_len, const uint8_t *bytes, size_t bytes_len, const char *what) {
    call(YOYOASH_VALUE, call_bytes, call_len, sizeof out, what);
    expect(bytes, bytes_len, bytes_len, what);
}

static void expect_why(const char *words, const char *what) {
    char why[100];
    size_t why_len;
    check(yoyoash_why(&store, why, sizeof why, &why_len) == YOYOASH_VALUE, what);
    check(why_len == strlen(words) && memcmp(why, words, why_len) == 0, what);
}

/* Checks that bytes are not a call, and where their fault is. */
static void fault(const uint8_t *bytes, size_t bytes_len, size_t at, const char *words) {
    call(YOYOASH_SYNTAX, bytes, bytes_len, sizeof out, words);
    expect((const uint8_t *)"", at, 0, words);
    expect_why(words, words);
}

static void try_replies(void) {
    reply(BYTES(HEAD "\3newl\0\0\0\2w\1tl\0\0\0\1w\x0bnamed_tablejj"), BYTES("\x83w\1t"), "new");
    reply(BYTES(HEAD "\6insertl\0\0\0\2w\1th\2w\1ab\xff\xff\xff\xffj"), BYTES("\x83w\4true"), "insert");
    reply(BYTES(LOOKUP_A), BYTES("\x83l\0\0\0\1h\2w\1ab\xff\xff\xff\xffj"), "lookup");
    reply(BYTES(HEAD "\7receivej"), BYTES("\x83j"), "receive");
    reply(BYTES(HEAD "\x0eupdate_elementl\0\0\0\3w\1tw\1ah\2a\2k\0\2hij"), BYTES("\x83w\4true"), "update_element");
    reply(BYTES(LOOKUP_A), BYTES("\x83l\0\0\0\1h\2w\1ak\0\2hij"), "a string");
}

static void try_refusals(void) {
    call(YOYOASH_BADARG, BYTES(HEAD "\6lookupl\0\0\0\2w\1uw\1aj"), sizeof out, "no such table");
    expect((const uint8_t *)"", 0, 0, "a refusal writes nothing");
    expect_why("argument 1: no such table", "the reason");
    call(YOYOASH_SYSTEM_LIMIT, BYTES(HEAD "\6insertl\0\0\0\2w\1tl\0\0\0\3h\1a\1h\1a\2h\1a\3jj"), sizeof out, "object limit");
    expect_why("object limit reached", "the reason of a limit");
    check(yoyoash_call_external(&store, 7, BYTES(LOOKUP_A), out, sizeof out, &len) == YOYOASH_NO_PROCESS && len == 0, "no process");
}

static void try_faults(void) {
    fault(BYTES(""), 0, "the bytes end inside a term");
    fault(BYTES("\x82j"), 0, "the first byte is not the version 131");
    fault(BYTES(HEAD "\6lookupl\0\0\0\2w\1tF"), 19, "unsupported tag");
    fault(BYTES(HEAD "\6lookupl\0\0\0\2w\1tw\1a"), 22, "the bytes end inside a term");
    fault(BYTES(HEAD "\6lookupl\0\0\0\2w\1tw\1aw"), 22, "improper lists are not supported");
    fault(BYTES(HEAD "\6lookupl\0\0\0\2w\1tw\1\nj"), 19, "not an atom of at most 255 printable ASCII characters");
    fault(BYTES(LOOKUP_A "j"), 23, "unexpected bytes after the call");
    fault(BYTES("\x83w\1a"), 0, "expected a tuple of the call's name and the list of its arguments");
}

/* A reply that does not fit is read again, in either form. */
static void try_small_buffers(void) {
    static const char again[] = "\x83l\0\0\0\1h\2w\1ak\0\2hij";
    for (size_t size = 0; size < sizeof again; size++) {
        call(YOYOASH_VALUE, BYTES(LOOKUP_A), size, "a small buffer");
        expect(BYTES(again), size < sizeof again - 1 ? size : sizeof again - 1, "a small buffer");
        check(yoyoash_reply_external(&store, out, sizeof out, &len) == YOYOASH_VALUE, "the reply again");
        expect(BYTES(again), sizeof again - 1, "the reply again");
    }
    memset(out, 0xee, sizeof out);
    check(yoyoash_reply(&store, (char *)out, sizeof out, &len) == YOYOASH_VALUE, "the reply as a text");
    expect(BYTES("[{a,[104,105]}]"), 15, "the reply as a text");
    check(yoyoash_call_text(&store, 0, "{member,t,b}", (char *)out, 0, &len) == YOYOASH_VALUE, "a call by a text");
    memset(out, 0xee, sizeof out);
    check(yoyoash_reply_external(&store, out, sizeof out, &len) == YOYOASH_VALUE, "its reply as bytes");
    expect(BYTES("\x83w\5false"), 8, "its reply as bytes");
}

static void try_closed(void) {
    yoyoash_close(&store);
    call(YOYOASH_CLOSED, BYTES(LOOKUP_A), sizeof out, "a closed store");
    expect((const uint8_t *)"", 0, 0, "a closed store");
    check(yoyoash_reply_external(&store, out, sizeof out, &len) == YOYOASH_CLOSED && len == 0, "the reply of a closed store");
}

int main(void) {
    check(yoyoash_open(&store, 10, 10, 2) == YOYOASH_VALUE && yoyoash_spawn(&store, 0) == YOYOASH_VALUE, "open");
    try_replies();
    try_refusals();
    try_faults();
    try_small_buffers();
    try_closed();
    return 0;
}
