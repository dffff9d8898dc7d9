/* Yoyoash for C: adds values to a term that is built. Include yoyoash_term.h. */
#ifndef YOYOASH_TERM_PUT_H
#define YOYOASH_TERM_PUT_H

#include <yoyoash_term_build.h>

#ifdef __cplusplus
extern "C" {
#endif

/* What precedes the number of a pid and of a table identifier of the store: their tags and the node `nonode@nohost`. */
#define YOYOASH_PID_HEAD "\x58\x77\x0dnonode@nohost"
#define YOYOASH_TABLE_HEAD "\x5a\0\1\x77\x0dnonode@nohost\0\0\0\0"

/* Adds an atom by its name, such as "named_table". */
static inline void yoyoash_term_put_atom(yoyoash_term *term, const char *name) { yoyoash_term_put_atom_of(term, name, strlen(name)); }

/* Adds the atom `true` or `false`. */
static inline void yoyoash_term_put_bool(yoyoash_term *term, int flag) { yoyoash_term_put_atom(term, flag ? "true" : "false"); }

/* Adds a binary of any bytes. They are copied. */
static inline void yoyoash_term_put_binary(yoyoash_term *term, const void *bytes, size_t len) {
    if (len > UINT32_MAX) yoyoash_term_fail(term, YOYOASH_TERM_TOO_LONG);
    uint8_t *at = term->fault == YOYOASH_TERM_WELL ? yoyoash_term_item(term, 5 + len) : NULL;
    if (!at) return;
    at[0] = YOYOASH_TAG_BINARY;
    yoyoash_term_store(at + 1, (uint32_t)len, 4);
    if (len > 0) memcpy(at + 5, bytes, len);
}

/* Adds the bytes of a C string, without its NUL, as a binary. */
static inline void yoyoash_term_put_string(yoyoash_term *term, const char *text) { yoyoash_term_put_binary(term, text, strlen(text)); }

/* Adds the integer of a sign and of two words of its size. */
static inline void yoyoash_term_put_big(yoyoash_term *term, int is_negative, uint64_t high, uint64_t low) {
    uint8_t digits[16], len = 16;
    for (int place = 0; place < 8; place++) {
        digits[place] = (uint8_t)(low >> 8 * place);
        digits[place + 8] = (uint8_t)(high >> 8 * place);
    }
    while (len > 0 && digits[len - 1] == 0) len--;
    uint8_t *at = yoyoash_term_item(term, 3 + (size_t)len);
    if (!at) return;
    at[0] = YOYOASH_TAG_BIG;
    at[1] = len;
    at[2] = is_negative ? 1 : 0;
    memcpy(at + 3, digits, len);
}

/* Adds an integer. */
static inline void yoyoash_term_put_integer(yoyoash_term *term, int64_t number) {
    int is_byte = number >= 0 && number <= 255;
    if (number < INT32_MIN || number > INT32_MAX) {
        yoyoash_term_put_big(term, number < 0, 0, number < 0 ? 0 - (uint64_t)number : (uint64_t)number);
        return;
    }
    uint8_t *at = yoyoash_term_item(term, is_byte ? 2 : 5);
    if (!at) return;
    at[0] = is_byte ? YOYOASH_TAG_BYTE : YOYOASH_TAG_INTEGER;
    yoyoash_term_store(at + 1, (uint32_t)number, is_byte ? 1 : 4);
}

/* Adds the integer high * 2^64 + low, from -2^127 to 2^127 - 1. */
static inline void yoyoash_term_put_integer128(yoyoash_term *term, int64_t high, uint64_t low) {
    if (high == (low >> 63 ? -1 : 0)) yoyoash_term_put_integer(term, (int64_t)low);
    else if (high >= 0) yoyoash_term_put_big(term, 0, (uint64_t)high, low);
    else yoyoash_term_put_big(term, 1, ~(uint64_t)high + (low == 0), 0 - low);
}

/* Adds the identifier of the process with this number. */
static inline void yoyoash_term_put_pid(yoyoash_term *term, uint32_t pid) {
    size_t head = sizeof YOYOASH_PID_HEAD - 1;
    uint8_t *at = yoyoash_term_item(term, head + 12);
    if (!at) return;
    memcpy(at, YOYOASH_PID_HEAD, head);
    yoyoash_term_store(at + head, pid, 4);
    memset(at + head + 4, 0, 8);
}

/* Adds the identifier of the table with this number, as `new` returns it for a table without a name. */
static inline void yoyoash_term_put_table(yoyoash_term *term, uint32_t table) {
    size_t head = sizeof YOYOASH_TABLE_HEAD - 1;
    uint8_t *at = yoyoash_term_item(term, head + 4);
    if (!at) return;
    memcpy(at, YOYOASH_TABLE_HEAD, head);
    yoyoash_term_store(at + head, table, 4);
}

#ifdef __cplusplus
}
#endif
#endif
