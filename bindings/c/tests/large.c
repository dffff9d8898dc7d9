/* Reads replies of 100 KB and of 2 MB in both formats: they arrive whole, in one buffer, by a second call after a small buffer, and in
   an answer. */
#include <stdio.h>
#include <stdlib.h>
#include <yoyoash_shared.h>

/* The bytes of a call before those of its binary, and of a reply around its binary: {insert, [t, {1, Binary}]} and Binary. */
static const uint8_t INSERT[] = {131, 104, 2, 119, 6, 'i', 'n', 's', 'e', 'r', 't', 108, 0, 0, 0, 2, 119, 1, 't', 104, 2, 97, 1};
static const uint8_t LOOKUP[] = {131, 104, 2, 119, 14, 'l', 'o', 'o', 'k', 'u', 'p', '_', 'e', 'l', 'e', 'm', 'e', 'n', 't', 108, 0, 0, 0, 3, 119, 1, 't', 97, 1, 97, 2, 106};
#define LOOKUP_TEXT "{lookup_element,t,1,2}"
/* The bytes of a binary before its own: a tag and a number of four bytes. */
enum { HEAD = 5 };

static void check(int holds, const char *what) {
    if (holds) return;
    fprintf(stderr, "large: %s\n", what);
    exit(1);
}

static void *allocate(size_t size) {
    void *block = malloc(size);
    check(block != NULL, "out of memory");
    return block;
}

/* Writes a binary of this many bytes in the external format. */
static void write_binary(uint8_t *to, size_t count) {
    uint8_t head[HEAD] = {109, count >> 24, count >> 16, count >> 8, count};
    memcpy(to, head, HEAD);
    for (size_t place = 0; place < count; place++) to[HEAD + place] = place * 2654435761u >> 13;
}

/* Writes the text of a binary, and returns its length. */
static size_t write_text(char *to, const uint8_t *binary, size_t count) {
    char *at = to + sprintf(to, "<<");
    for (size_t place = 0; place < count; place++) at += sprintf(at, place ? ",%d" : "%d", binary[HEAD + place]);
    return at - to + sprintf(at, ">>");
}

/* Inserts the binary that the reply has. */
static void insert(yoyoash_store *store, const uint8_t *reply, size_t reply_len) {
    uint8_t *call = allocate(sizeof INSERT + reply_len), out[16];
    size_t len;
    memcpy(call, INSERT, sizeof INSERT);
    memcpy(call + sizeof INSERT, reply + 1, reply_len - 1);
    call[sizeof INSERT + reply_len - 1] = 106;
    check(yoyoash_call_external(store, 0, call, sizeof INSERT + reply_len, out, sizeof out, &len) == YOYOASH_VALUE, "insert");
    free(call);
}

/* Reads the binary by calls into a buffer of the whole length and a small one. */
static void read_bytes(yoyoash_store *store, const uint8_t *reply, size_t reply_len) {
    uint8_t *out = allocate(reply_len);
    size_t len = 0;
    check(yoyoash_call_external(store, 0, LOOKUP, sizeof LOOKUP, out, reply_len, &len) == YOYOASH_VALUE, "a call in bytes");
    check(len == reply_len && memcmp(out, reply, len) == 0, "the reply in bytes");
    memset(out, 0, reply_len);
    check(yoyoash_call_external(store, 0, LOOKUP, sizeof LOOKUP, out, 64, &len) == YOYOASH_VALUE && len == reply_len, "the length in bytes");
    check(memcmp(out, reply, 64) == 0, "the first bytes");
    check(yoyoash_reply_external(store, out, len, &len) == YOYOASH_VALUE, "the reply again");
    check(len == reply_len && memcmp(out, reply, len) == 0, "the bytes again");
    free(out);
}

static void read_text(yoyoash_store *store, const char *text, size_t text_len) {
    char *out = allocate(text_len);
    size_t len = 0;
    check(yoyoash_call_text(store, 0, LOOKUP_TEXT, out, text_len, &len) == YOYOASH_VALUE, "a call by a text");
    check(len == text_len && memcmp(out, text, len) == 0, "the text of the reply");
    memset(out, 0, text_len);
    check(yoyoash_reply(store, out, text_len, &len) == YOYOASH_VALUE && len == text_len && memcmp(out, text, len) == 0, "the text again");
    free(out);
}

/* Reads the binary into an answer, in both formats. */
static void read_answers(yoyoash_shared *shared, const uint8_t *reply, size_t reply_len, const char *text, size_t text_len) {
    yoyoash_answer answer = {0};
    check(yoyoash_shared_call_external(shared, 0, LOOKUP, sizeof LOOKUP, &answer) == YOYOASH_VALUE, "a shared call in bytes");
    check(answer.len == reply_len && memcmp(answer.bytes, reply, reply_len) == 0, "an answer in bytes");
    check(yoyoash_shared_call(shared, 0, LOOKUP_TEXT, sizeof LOOKUP_TEXT - 1, &answer) == YOYOASH_VALUE, "a shared call by a text");
    check(answer.len == text_len && memcmp(answer.bytes, text, text_len) == 0, "an answer as a text");
    yoyoash_answer_free(&answer);
}

/* Inserts a binary of this many bytes and reads it. */
static void try_binary(yoyoash_shared *shared, size_t count) {
    size_t reply_len = 1 + HEAD + count;
    uint8_t *reply = allocate(reply_len);
    char *text = allocate(4 * count + 8);
    reply[0] = 131;
    write_binary(reply + 1, count);
    size_t text_len = write_text(text, reply + 1, count);
    insert(&shared->store, reply, reply_len);
    read_bytes(&shared->store, reply, reply_len);
    read_text(&shared->store, text, text_len);
    read_answers(shared, reply, reply_len, text, text_len);
    free(text);
    free(reply);
}

int main(void) {
    yoyoash_shared shared;
    yoyoash_answer answer = {0};
    check(yoyoash_shared_open_with_seed(&shared, YOYOASH_MAX_PROCESSES, YOYOASH_MAX_TABLES, YOYOASH_MAX_OBJECTS, 1) == YOYOASH_VALUE, "open");
    check(yoyoash_shared_spawn(&shared, 0, &answer) == YOYOASH_VALUE, "spawn");
    check(yoyoash_shared_call(&shared, 0, "{new,t,[named_table]}", 21, &answer) == YOYOASH_VALUE, "new");
    yoyoash_answer_free(&answer);
    try_binary(&shared, 100000);
    try_binary(&shared, 2000000);
    yoyoash_shared_close(&shared);
    return 0;
}
