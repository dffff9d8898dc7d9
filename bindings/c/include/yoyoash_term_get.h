/* Yoyoash for C: gets the terms of a reply, one after another. Include yoyoash_term.h. */
#ifndef YOYOASH_TERM_GET_H
#define YOYOASH_TERM_GET_H

#include <yoyoash_term_read.h>

#ifdef __cplusplus
extern "C" {
#endif

/* Returns the type of the next term, or YOYOASH_TERM_NONE after the last one. */
static inline int32_t yoyoash_term_type_of(const yoyoash_term_reader *reader) { return yoyoash_term_next(reader).type; }

/* Gets the bytes of an atom or a binary. */
static inline int yoyoash_term_get_bytes(yoyoash_term_reader *reader, int32_t type, const uint8_t **bytes, size_t *len) {
    yoyoash_term_piece piece = yoyoash_term_next(reader);
    const uint8_t *content = reader->at + piece.head;
    if (piece.type != type || !yoyoash_term_skip(reader)) return 0;
    *bytes = content;
    *len = piece.len;
    return 1;
}

/* Gets a binary: where its bytes are, and their number. */
static inline int yoyoash_term_get_binary(yoyoash_term_reader *reader, const uint8_t **bytes, size_t *len) {
    return yoyoash_term_get_bytes(reader, YOYOASH_TERM_BINARY, bytes, len);
}

/* Gets the name of an atom, which has no NUL after it. */
static inline int yoyoash_term_get_atom(yoyoash_term_reader *reader, const char **name, size_t *len) {
    const uint8_t *bytes;
    if (!yoyoash_term_get_bytes(reader, YOYOASH_TERM_ATOM, &bytes, len)) return 0;
    *name = (const char *)bytes;
    return 1;
}

/* Gets the atom of this name. */
static inline int yoyoash_term_get_word(yoyoash_term_reader *reader, const char *name) {
    yoyoash_term_piece piece = yoyoash_term_next(reader);
    int is_it = piece.type == YOYOASH_TERM_ATOM && piece.len == strlen(name) && memcmp(reader->at + piece.head, name, piece.len) == 0;
    return is_it && yoyoash_term_skip(reader);
}

/* Gets `true` or `false`. */
static inline int yoyoash_term_get_bool(yoyoash_term_reader *reader, int *flag) {
    int is_true = yoyoash_term_get_word(reader, "true");
    if (!is_true && !yoyoash_term_get_word(reader, "false")) return 0;
    *flag = is_true;
    return 1;
}

/* Reads the digits of an integer, the lowest first, as high * 2^64 + low. Returns whether it is in the range of 128 bits. */
static inline int yoyoash_term_digits(const uint8_t *digits, size_t len, int is_negative, int64_t *high, uint64_t *low) {
    uint64_t words[2] = {0, 0};
    if (len > 16) return 0;
    for (size_t place = 0; place < len; place++) words[place / 8] |= (uint64_t)digits[place] << 8 * (place % 8);
    int is_zero = words[0] == 0 && words[1] == 0;
    if (is_negative) words[1] = ~words[1] + (words[0] == 0);
    if (is_negative) words[0] = 0 - words[0];
    if (!is_zero && (words[1] >> 63) != (uint64_t)(is_negative != 0)) return 0;
    *high = (int64_t)words[1];
    *low = words[0];
    return 1;
}

/* Gets an integer of 128 bits, which is high * 2^64 + low. */
static inline int yoyoash_term_get_integer128(yoyoash_term_reader *reader, int64_t *high, uint64_t *low) {
    yoyoash_term_piece piece = yoyoash_term_next(reader);
    if (piece.type != YOYOASH_TERM_INTEGER) return 0;
    const uint8_t *content = reader->at + piece.head;
    if (piece.head == 3) {
        if (!yoyoash_term_digits(content, piece.len, content[-1] != 0, high, low)) return 0;
    } else {
        int64_t number = piece.len == 1 ? content[0] : (int64_t)(int32_t)(uint32_t)yoyoash_term_number(content, 4);
        *high = number < 0 ? -1 : 0;
        *low = (uint64_t)number;
    }
    return yoyoash_term_skip(reader);
}

/* Gets an integer of 64 bits. A larger one is not got. */
static inline int yoyoash_term_get_integer(yoyoash_term_reader *reader, int64_t *number) {
    yoyoash_term_reader after = *reader;
    int64_t high;
    uint64_t low;
    if (!yoyoash_term_get_integer128(&after, &high, &low) || high != (low >> 63 ? -1 : 0)) return 0;
    *reader = after;
    *number = (int64_t)low;
    return 1;
}

/* Gets the number of an identifier. */
static inline int yoyoash_term_get_number(yoyoash_term_reader *reader, int32_t type, uint32_t *number) {
    yoyoash_term_piece piece = yoyoash_term_next(reader);
    if (piece.type != type) return 0;
    *number = (uint32_t)yoyoash_term_number(reader->at + piece.head, 4);
    return yoyoash_term_skip(reader);
}

/* Gets the number of a process. */
static inline int yoyoash_term_get_pid(yoyoash_term_reader *reader, uint32_t *pid) {
    return yoyoash_term_get_number(reader, YOYOASH_TERM_PID, pid);
}

/* Gets the number of a table. */
static inline int yoyoash_term_get_table(yoyoash_term_reader *reader, uint32_t *table) {
    return yoyoash_term_get_number(reader, YOYOASH_TERM_TABLE, table);
}

/* Moves past a tuple or a list, and makes `inside` a reader of its elements. They may be the same reader. */
static inline int yoyoash_term_get_row(yoyoash_term_reader *reader, int32_t type, yoyoash_term_reader *inside) {
    yoyoash_term_piece piece = yoyoash_term_next(reader);
    yoyoash_term_reader elements = {reader->at + piece.head, reader->end, piece.count, piece.is_codes};
    if (piece.type != type || !yoyoash_term_skip(reader)) return 0;
    elements.end = reader->at;
    *inside = elements;
    return 1;
}

/* Gets a tuple: a reader of its elements, whose number is inside->left. */
static inline int yoyoash_term_get_tuple(yoyoash_term_reader *reader, yoyoash_term_reader *inside) {
    return yoyoash_term_get_row(reader, YOYOASH_TERM_TUPLE, inside);
}

/* Gets a list: a reader of its elements, whose number is inside->left. */
static inline int yoyoash_term_get_list(yoyoash_term_reader *reader, yoyoash_term_reader *inside) {
    return yoyoash_term_get_row(reader, YOYOASH_TERM_LIST, inside);
}

/* Gets a term of any type, and adds it to a term that is built: a key of `first` to a call of `next`. */
static inline int yoyoash_term_copy(yoyoash_term_reader *reader, yoyoash_term *term) {
    const uint8_t *start = reader->at;
    int is_code = reader->is_codes;
    if (!yoyoash_term_skip(reader)) return 0;
    if (is_code) {
        yoyoash_term_put_integer(term, start[0]);
        return 1;
    }
    uint8_t *at = yoyoash_term_item(term, (size_t)(reader->at - start));
    if (at) memcpy(at, start, (size_t)(reader->at - start));
    return 1;
}

#ifdef __cplusplus
}
#endif
#endif
