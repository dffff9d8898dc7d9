/* Yoyoash for C: reads the bytes of a reply. Include yoyoash_term.h.

   A reader is a place before one or more terms. A function that begins with yoyoash_term_get returns 1 and moves past the next term
   if this has the type that it gets. Otherwise it returns 0 and moves nothing. The elements of a tuple or a list have a reader of
   their own:

       yoyoash_term_reader at, object;
       if (yoyoash_term_read(&at, bytes, len) && yoyoash_term_get_list(&at, &at))
           while (yoyoash_term_get_tuple(&at, &object)) ..

   Names and binaries point into the reply and live as long as it does. No byte past `len` is read, whatever the bytes are. */
#ifndef YOYOASH_TERM_READ_H
#define YOYOASH_TERM_READ_H

#include <yoyoash_term_put.h>

#ifdef __cplusplus
extern "C" {
#endif

typedef enum yoyoash_term_type {
    YOYOASH_TERM_NONE = 0, /* no more terms, or bytes that are not a term of the store */
    YOYOASH_TERM_INTEGER = 1,
    YOYOASH_TERM_ATOM = 2,
    YOYOASH_TERM_BINARY = 3,
    YOYOASH_TERM_TUPLE = 4,
    YOYOASH_TERM_LIST = 5,
    YOYOASH_TERM_PID = 6,
    YOYOASH_TERM_TABLE = 7
} yoyoash_term_type;

/* A place in a reply. `left` is the number of terms that follow. Only the functions below write its contents. */
typedef struct yoyoash_term_reader {
    const uint8_t *at, *end;
    size_t left;
    int is_codes; /* whether the terms are integers of one byte each, without a tag */
} yoyoash_term_reader;

/* The next term: its type, the bytes before its content, and those of its content, or the number of its elements. */
typedef struct yoyoash_term_piece {
    int32_t type;
    size_t head, len, count;
    int is_codes;
} yoyoash_term_piece;

/* Reads a number of this many bytes, the high byte first. */
static inline size_t yoyoash_term_number(const uint8_t *at, int bytes) {
    size_t number = 0;
    for (int place = 0; place < bytes; place++) number = number << 8 | at[place];
    return number;
}

/* Returns a piece, or none if the bytes end inside its head or its content. */
static inline yoyoash_term_piece yoyoash_term_cut(int32_t type, size_t head, size_t len, size_t count, size_t rest) {
    yoyoash_term_piece piece = {type, head, len, count, 0}, none = {YOYOASH_TERM_NONE, 0, 0, 0, 0};
    return head <= rest && len <= rest - head ? piece : none;
}

/* Returns a piece with a length, or a number of elements, of this many bytes after its tag. */
static inline yoyoash_term_piece yoyoash_term_counted(int32_t type, const uint8_t *at, int bytes, int is_row, size_t rest) {
    size_t head = 1 + (size_t)bytes, count = head <= rest ? yoyoash_term_number(at + 1, bytes) : 0;
    return yoyoash_term_cut(type, head, is_row ? 0 : count, is_row ? count : 0, rest);
}

/* Returns the piece of an identifier, if its bytes are those that the store writes. */
static inline yoyoash_term_piece yoyoash_term_identifier(int32_t type, const uint8_t *at, const char *head, size_t len, size_t zeros, size_t rest) {
    int is_ours = rest >= len + 4 + zeros && memcmp(at, head, len) == 0;
    for (size_t place = 0; is_ours && place < zeros; place++) is_ours = at[len + 4 + place] == 0;
    return yoyoash_term_cut(is_ours ? type : YOYOASH_TERM_NONE, len, 4 + zeros, 0, rest);
}

/* Returns the piece at a place that has `rest` more bytes. */
static inline yoyoash_term_piece yoyoash_term_at(const uint8_t *at, size_t rest) {
    yoyoash_term_piece codes;
    switch (rest > 0 ? at[0] : 0) {
    case YOYOASH_TAG_BYTE: return yoyoash_term_cut(YOYOASH_TERM_INTEGER, 1, 1, 0, rest);
    case YOYOASH_TAG_INTEGER: return yoyoash_term_cut(YOYOASH_TERM_INTEGER, 1, 4, 0, rest);
    case YOYOASH_TAG_BIG: return yoyoash_term_cut(YOYOASH_TERM_INTEGER, 3, rest > 1 ? at[1] : 0, 0, rest);
    case YOYOASH_TAG_ATOM: return yoyoash_term_counted(YOYOASH_TERM_ATOM, at, 1, 0, rest);
    case YOYOASH_TAG_OLD_ATOM: return yoyoash_term_counted(YOYOASH_TERM_ATOM, at, 2, 0, rest);
    case YOYOASH_TAG_BINARY: return yoyoash_term_counted(YOYOASH_TERM_BINARY, at, 4, 0, rest);
    case YOYOASH_TAG_TUPLE: return yoyoash_term_counted(YOYOASH_TERM_TUPLE, at, 1, 1, rest);
    case YOYOASH_TAG_LARGE_TUPLE: return yoyoash_term_counted(YOYOASH_TERM_TUPLE, at, 4, 1, rest);
    case YOYOASH_TAG_NIL: return yoyoash_term_cut(YOYOASH_TERM_LIST, 1, 0, 0, rest);
    case YOYOASH_TAG_LIST: return yoyoash_term_counted(YOYOASH_TERM_LIST, at, 4, 1, rest);
    case YOYOASH_TAG_STRING:
        codes = yoyoash_term_counted(YOYOASH_TERM_LIST, at, 2, 0, rest);
        codes.is_codes = 1;
        codes.count = codes.len;
        return codes;
    case YOYOASH_TAG_PID: return yoyoash_term_identifier(YOYOASH_TERM_PID, at, YOYOASH_PID_HEAD, sizeof YOYOASH_PID_HEAD - 1, 8, rest);
    case YOYOASH_TAG_REFERENCE: return yoyoash_term_identifier(YOYOASH_TERM_TABLE, at, YOYOASH_TABLE_HEAD, sizeof YOYOASH_TABLE_HEAD - 1, 0, rest);
    default: return yoyoash_term_cut(YOYOASH_TERM_NONE, 0, 0, 0, rest);
    }
}

/* Returns the place after the term at a place, or NULL if there is no whole term with at most this many levels. */
static inline const uint8_t *yoyoash_term_after(const uint8_t *at, const uint8_t *end, int levels) {
    yoyoash_term_piece piece = yoyoash_term_at(at, (size_t)(end - at));
    if (piece.type == YOYOASH_TERM_NONE || levels == 0) return NULL;
    int has_tail = at[0] == YOYOASH_TAG_LIST;
    at += piece.head + piece.len;
    for (size_t each = 0; at && !piece.is_codes && each < piece.count; each++) at = yoyoash_term_after(at, end, levels - 1);
    if (!at || !has_tail) return at;
    return at < end && *at == YOYOASH_TAG_NIL ? at + 1 : NULL;
}

/* Returns the next term of a reader. */
static inline yoyoash_term_piece yoyoash_term_next(const yoyoash_term_reader *reader) {
    size_t rest = reader->left > 0 ? (size_t)(reader->end - reader->at) : 0;
    return reader->is_codes ? yoyoash_term_cut(rest > 0 ? YOYOASH_TERM_INTEGER : YOYOASH_TERM_NONE, 0, rest > 0 ? 1 : 0, 0, rest)
                            : yoyoash_term_at(reader->at, rest);
}

/* Moves past the next term. Returns whether there is one. */
static inline int yoyoash_term_skip(yoyoash_term_reader *reader) {
    if (yoyoash_term_next(reader).type == YOYOASH_TERM_NONE) return 0;
    const uint8_t *after = reader->is_codes ? reader->at + 1 : yoyoash_term_after(reader->at, reader->end, YOYOASH_TERM_LEVELS);
    if (!after) return 0;
    reader->at = after;
    reader->left--;
    return 1;
}

/* Begins to read a reply. Returns whether the bytes are one whole term of the store, 131 first, with nothing after it. */
static inline int yoyoash_term_read(yoyoash_term_reader *reader, const void *bytes, size_t len) {
    const uint8_t *at = (const uint8_t *)bytes;
    yoyoash_term_reader none = {at, at, 0, 0};
    *reader = none;
    if (len == 0 || at[0] != YOYOASH_TAG_VERSION || yoyoash_term_after(at + 1, at + len, YOYOASH_TERM_LEVELS) != at + len) return 0;
    reader->at = at + 1;
    reader->end = at + len;
    reader->left = 1;
    return 1;
}

#ifdef __cplusplus
}
#endif
#endif
