/* Yoyoash for C: builds a call, or a term, in Erlang's External Term Format. Include yoyoash_term.h.

   Start with `yoyoash_term call = {0};` (in C++ `{}`), whose memory grows by realloc, or with yoyoash_term_use and a buffer of
   your own. The first fault stays: later functions do nothing, and yoyoash_term_end returns it. So check once, at the end:

       yoyoash_term_call(&call, "insert");
       yoyoash_term_put_atom(&call, "prices");
       yoyoash_term_open_tuple(&call);
       yoyoash_term_put_string(&call, name);
       yoyoash_term_put_integer(&call, 30);
       yoyoash_term_close(&call);
       if (yoyoash_term_end(&call) != YOYOASH_TERM_WELL) ..                                                                   */
#ifndef YOYOASH_TERM_BUILD_H
#define YOYOASH_TERM_BUILD_H

#include <stdlib.h>
#include <yoyoash.h>

#ifdef __cplusplus
extern "C" {
#endif

/* The most levels of a term. A call takes two of them. */
#define YOYOASH_TERM_LEVELS 128

typedef enum yoyoash_term_fault {
    YOYOASH_TERM_WELL = 0,       /* no fault */
    YOYOASH_TERM_NO_MEMORY = 1,  /* out of memory */
    YOYOASH_TERM_NO_ROOM = 2,    /* the caller's buffer is too small */
    YOYOASH_TERM_BAD_ATOM = 3,   /* not an atom of at most 255 printable ASCII characters */
    YOYOASH_TERM_TOO_DEEP = 4,   /* more than 128 levels */
    YOYOASH_TERM_TOO_LONG = 5,   /* 2^32 or more bytes or elements */
    YOYOASH_TERM_UNBALANCED = 6  /* a close too many or too few, or a term too many or too few */
} yoyoash_term_fault;

/* Bytes that are built. After yoyoash_term_end, `bytes` and `len` are the term. Only the functions below write its contents. */
typedef struct yoyoash_term {
    uint8_t *bytes;
    size_t len;
    size_t size;
    int32_t fault; /* a yoyoash_term_fault: the first one */
    int is_fixed;  /* whether the memory is the caller's */
    uint32_t base, depth;
    size_t opened[YOYOASH_TERM_LEVELS];
    uint32_t counts[YOYOASH_TERM_LEVELS];
} yoyoash_term;

/* The tags of the format. */
enum {
    YOYOASH_TAG_PID = 88,
    YOYOASH_TAG_REFERENCE = 90,
    YOYOASH_TAG_BYTE = 97,
    YOYOASH_TAG_INTEGER = 98,
    YOYOASH_TAG_OLD_ATOM = 100,
    YOYOASH_TAG_TUPLE = 104,
    YOYOASH_TAG_LARGE_TUPLE = 105,
    YOYOASH_TAG_NIL = 106,
    YOYOASH_TAG_STRING = 107,
    YOYOASH_TAG_LIST = 108,
    YOYOASH_TAG_BINARY = 109,
    YOYOASH_TAG_BIG = 110,
    YOYOASH_TAG_ATOM = 119,
    YOYOASH_TAG_VERSION = 131
};

/* Empties a term and keeps its memory. */
static inline void yoyoash_term_clear(yoyoash_term *term) {
    term->len = 0;
    term->fault = YOYOASH_TERM_WELL;
    term->base = term->depth = 0;
}

/* Makes an empty term over a buffer of the caller, which is never freed and never grows. */
static inline void yoyoash_term_use(yoyoash_term *term, void *buffer, size_t size) {
    yoyoash_term_clear(term);
    term->bytes = (uint8_t *)buffer;
    term->size = size;
    term->is_fixed = 1;
}

/* Frees the memory of a term, which is empty then. A buffer of the caller is left alone. */
static inline void yoyoash_term_free(yoyoash_term *term) {
    if (!term->is_fixed) free(term->bytes);
    yoyoash_term_use(term, NULL, 0);
    term->is_fixed = 0;
}

/* Sets a fault, if there is none yet. Returns 0. */
static inline int yoyoash_term_fail(yoyoash_term *term, int32_t fault) {
    if (term->fault == YOYOASH_TERM_WELL) term->fault = fault;
    return 0;
}

/* Makes the memory at least this large. Returns whether it is. */
static inline int yoyoash_term_grow(yoyoash_term *term, size_t size) {
    if (size <= term->size) return 1;
    if (term->is_fixed) return yoyoash_term_fail(term, YOYOASH_TERM_NO_ROOM);
    uint8_t *grown = (uint8_t *)realloc(term->bytes, size);
    if (!grown) return yoyoash_term_fail(term, YOYOASH_TERM_NO_MEMORY);
    term->bytes = grown;
    term->size = size;
    return 1;
}

/* Adds this number of bytes. Returns where they are, or NULL after a fault. */
static inline uint8_t *yoyoash_term_add(yoyoash_term *term, size_t len) {
    if (term->fault != YOYOASH_TERM_WELL) return NULL;
    if (len > SIZE_MAX / 4 - term->len) yoyoash_term_fail(term, YOYOASH_TERM_TOO_LONG);
    else if (len > term->size - term->len) yoyoash_term_grow(term, (term->len + len) * (term->is_fixed ? 1 : 2) + (term->is_fixed ? 0 : 62));
    if (term->fault != YOYOASH_TERM_WELL) return NULL;
    term->len += len;
    return term->bytes + term->len - len;
}

/* Adds the bytes of one more element, or of the whole term. Returns where they are, or NULL after a fault. */
static inline uint8_t *yoyoash_term_item(yoyoash_term *term, size_t len) {
    if (term->depth == YOYOASH_TERM_LEVELS) yoyoash_term_fail(term, YOYOASH_TERM_TOO_DEEP);
    else if (term->depth == 0 && term->len != 1) yoyoash_term_fail(term, YOYOASH_TERM_UNBALANCED);
    else if (term->depth > 0 && term->counts[term->depth - 1] == UINT32_MAX) yoyoash_term_fail(term, YOYOASH_TERM_TOO_LONG);
    uint8_t *at = yoyoash_term_add(term, len);
    if (at && term->depth > 0) term->counts[term->depth - 1]++;
    return at;
}

/* Writes a number of this many bytes, the high byte first. */
static inline void yoyoash_term_store(uint8_t *at, uint32_t number, int bytes) {
    for (int place = bytes - 1; place >= 0; place--, number >>= 8) at[place] = (uint8_t)number;
}

/* Begins a tuple or a list. Its elements follow, and then yoyoash_term_close. */
static inline void yoyoash_term_open(yoyoash_term *term, uint8_t tag, size_t head) {
    uint8_t *at = yoyoash_term_item(term, head);
    if (!at) return;
    at[0] = tag;
    term->opened[term->depth] = (size_t)(at - term->bytes);
    term->counts[term->depth++] = 0;
}

static inline void yoyoash_term_open_tuple(yoyoash_term *term) { yoyoash_term_open(term, YOYOASH_TAG_TUPLE, 2); }

static inline void yoyoash_term_open_list(yoyoash_term *term) { yoyoash_term_open(term, YOYOASH_TAG_LIST, 5); }

/* Writes the number of elements of a tuple that begins at an offset. One of over 255 elements has a longer head. */
static inline void yoyoash_term_close_tuple(yoyoash_term *term, size_t start, uint32_t count) {
    if (count > 255 && yoyoash_term_add(term, 3)) {
        memmove(term->bytes + start + 5, term->bytes + start + 2, term->len - start - 5);
        term->bytes[start] = YOYOASH_TAG_LARGE_TUPLE;
    }
    if (term->fault == YOYOASH_TERM_WELL) yoyoash_term_store(term->bytes + start + 1, count, count > 255 ? 4 : 1);
}

/* Writes the number of elements of a list that begins at an offset, and its tail. */
static inline void yoyoash_term_close_list(yoyoash_term *term, size_t start, uint32_t count) {
    if (count == 0) term->len = start;
    uint8_t *tail = yoyoash_term_add(term, 1);
    if (!tail) return;
    tail[0] = YOYOASH_TAG_NIL;
    if (count > 0) yoyoash_term_store(term->bytes + start + 1, count, 4);
}

/* Ends the innermost tuple or list. */
static inline void yoyoash_term_shut(yoyoash_term *term) {
    if (term->fault != YOYOASH_TERM_WELL) return;
    size_t start = term->opened[--term->depth];
    uint32_t count = term->counts[term->depth];
    if (term->bytes[start] == YOYOASH_TAG_TUPLE) yoyoash_term_close_tuple(term, start, count);
    else yoyoash_term_close_list(term, start, count);
}

/* Ends the innermost tuple or list that the caller opened. */
static inline void yoyoash_term_close(yoyoash_term *term) {
    if (term->depth <= term->base) yoyoash_term_fail(term, YOYOASH_TERM_UNBALANCED);
    yoyoash_term_shut(term);
}

/* Begins a term that is no call. One value follows, and then yoyoash_term_end. */
static inline void yoyoash_term_begin(yoyoash_term *term) {
    yoyoash_term_clear(term);
    uint8_t *at = yoyoash_term_add(term, 1);
    if (at) at[0] = YOYOASH_TAG_VERSION;
}

/* Adds an atom of this many characters. */
static inline void yoyoash_term_put_atom_of(yoyoash_term *term, const char *text, size_t len) {
    int is_well = len <= 255;
    for (size_t place = 0; is_well && place < len; place++) is_well = text[place] >= ' ' && text[place] <= '~';
    if (!is_well) yoyoash_term_fail(term, YOYOASH_TERM_BAD_ATOM);
    uint8_t *at = yoyoash_term_item(term, 2 + (is_well ? len : 0));
    if (!at) return;
    at[0] = YOYOASH_TAG_ATOM;
    at[1] = (uint8_t)len;
    if (len > 0) memcpy(at + 2, text, len);
}

/* Begins a call of this name. Its arguments follow, and then yoyoash_term_end, or yoyoash_term_make, which ends it. */
static inline void yoyoash_term_call(yoyoash_term *term, const char *name) {
    yoyoash_term_begin(term);
    yoyoash_term_open_tuple(term);
    yoyoash_term_put_atom_of(term, name, strlen(name));
    yoyoash_term_open_list(term);
    term->base = term->depth;
}

/* Ends a term or a call. Returns its first fault, or YOYOASH_TERM_WELL. To end it again changes nothing. */
static inline int32_t yoyoash_term_end(yoyoash_term *term) {
    if (term->depth != term->base || term->len < 2) yoyoash_term_fail(term, YOYOASH_TERM_UNBALANCED);
    while (term->fault == YOYOASH_TERM_WELL && term->depth > 0) yoyoash_term_shut(term);
    term->base = term->depth;
    return term->fault;
}

#ifdef __cplusplus
}
#endif
#endif
