/* Yoyoash for C: numbers for the reasons of refusals, so that no program compares their texts. Include yoyoash_term.h. */
#ifndef YOYOASH_REASON_H
#define YOYOASH_REASON_H

#include <yoyoash.h>

#ifdef __cplusplus
extern "C" {
#endif

/* Each reason: its name, its number, which stays, and its text. A text that ends with a blank is that of all reasons that begin so. */
#define YOYOASH_REASONS(X)                                                                    \
    /* A rule of the call is broken. */                                                       \
    X(NO_PROCESS, 1, "no such process (or it has exited)")                                    \
    X(PROCESS_USED, 2, "process number already used")                                         \
    X(TOO_DEEP, 3, "more than 128 levels deep")                                               \
    X(UNKNOWN_CALL, 4, "unknown call")                                                        \
    X(ARGUMENTS, 5, "wrong number of arguments")                                              \
    X(NO_TABLE, 6, "no such table")                                                           \
    X(NOT_READABLE, 7, "the process may not read this table")                                 \
    X(NOT_WRITABLE, 8, "the process may not write to this table")                             \
    X(NOT_OWNER, 9, "the process does not own this table")                                    \
    X(NOT_A_SET, 10, "the table is not a set")                                                \
    X(NOT_AN_OBJECT, 11, "not a tuple that has the key position, or the key is '$end_of_table'") \
    X(NO_KEY, 12, "no such key")                                                              \
    X(NOT_A_POSITION, 13, "position must be at least 1")                                      \
    X(NO_ELEMENT, 14, "position is past the end of the object")                               \
    X(NOT_A_PATTERN, 15, "pattern must be a tuple or an atom")                                \
    X(NOT_A_SPECIFICATION, 16, "malformed match specification")                               \
    X(NOT_AN_UPDATE, 17, "malformed update, or it would change the key")                      \
    X(NOT_A_COUNTER, 18, "the element is missing or not an integer")                          \
    X(NOT_AN_ATOM, 19, "table name must be an atom")                                          \
    X(NAME_USED, 20, "table name already in use")                                             \
    X(BAD_OPTION, 21, "unknown or malformed option")                                          \
    X(BAD_ITEM, 22, "unknown info item")                                                      \
    X(NOT_A_BOOLEAN, 23, "must be true or false")                                             \
    X(NOT_A_PID, 24, "not a pid")                                                             \
    X(OWNS_ALREADY, 25, "the process already owns the table")                                 \
    X(PROCESS_LIMIT, 26, "process limit reached")                                             \
    X(TABLE_LIMIT, 27, "table limit reached")                                                 \
    X(OBJECT_LIMIT, 28, "object limit reached")                                               \
    X(FIX_LIMIT, 29, "fix limit reached")                                                     \
    X(LIMIT_EXCEEDED, 30, "integer range, depth limit or object limit would be exceeded")     \
    X(OUT_OF_MEMORY, 40, "out of memory")                                                     \
    /* Bytes, or a text, are not a call. */                                                   \
    X(TRUNCATED, 50, "the bytes end inside a term")                                           \
    X(BAD_VERSION, 51, "the first byte is not the version 131")                               \
    X(UNSUPPORTED_TAG, 52, "unsupported tag")                                                 \
    X(IMPROPER_LIST, 53, "improper lists are not supported")                                  \
    X(BAD_ATOM, 54, "not an atom of at most 255 printable ASCII characters")                  \
    X(INTEGER_RANGE, 55, "integer out of range")                                              \
    X(OTHER_NODE, 56, "a pid or reference of another node")                                   \
    X(NOT_A_CALL, 57, "expected a tuple of the call's name and the list of its arguments")    \
    X(TRAILING_BYTES, 58, "unexpected bytes after the call")                                  \
    X(NOT_A_CALL_TEXT, 70, "expected a tuple that begins with the call's name")               \
    X(TRAILING_TEXT, 71, "unexpected text after the call")                                    \
    X(COMMENT, 72, "comments must be on their own line")                                      \
    X(VARIABLE, 73, "variables are not supported")                                            \
    X(FLOAT, 74, "floats are not supported")                                                  \
    X(MAP, 75, "maps are not supported")                                                      \
    X(BAD_REFERENCE, 76, "references other than #Tid<N> are not supported")                   \
    X(CHARACTER, 77, "character literals are not supported")                                  \
    X(INTEGER_BASE, 78, "integers with a base are not supported")                             \
    X(LONG_ATOM, 79, "atom longer than 255 characters")                                       \
    X(BAD_ESCAPE, 80, "only ")                                                                \
    X(NOT_PRINTABLE, 81, "not a printable ASCII character ")                                  \
    X(UNEXPECTED, 82, "unexpected ")

/* YOYOASH_REASON_NO_TABLE and the others. */
#define YOYOASH_REASON_NUMBER(name, number, text) YOYOASH_REASON_##name = number,
typedef enum yoyoash_reason {
    YOYOASH_REASON_NONE = 0, /* the call was not refused */
    YOYOASH_REASONS(YOYOASH_REASON_NUMBER)
    YOYOASH_REASON_OTHER = 1000 /* a reason that this header does not know: the library is newer */
} yoyoash_reason;
#undef YOYOASH_REASON_NUMBER

/* Returns whether a reason has this text. */
static inline int yoyoash_reason_is(const char *why, size_t len, const char *text) {
    size_t most = strlen(text);
    int is_beginning = most > 0 && text[most - 1] == ' ';
    return (len == most || (is_beginning && len > most)) && memcmp(why, text, most) == 0;
}

/* Returns the number of a reason's text, a yoyoash_reason. *argument is the number of the argument that it is about, from 1, or 0. */
static inline int32_t yoyoash_reason_of(const char *why, size_t len, uint32_t *argument) {
    size_t at = sizeof "argument " - 1, number = 0;
    *argument = 0;
    if (len > at && memcmp(why, "argument ", at) == 0) {
        for (; at < len && why[at] >= '0' && why[at] <= '9' && number < 1000; at++) number = 10 * number + (size_t)(why[at] - '0');
        if (len - at < 2 || why[at] != ':' || why[at + 1] != ' ') return YOYOASH_REASON_OTHER;
        *argument = (uint32_t)number;
        why += at + 2;
        len -= at + 2;
    }
    if (len == 0) return YOYOASH_REASON_NONE;
#define YOYOASH_REASON_FIND(name, number, text) if (yoyoash_reason_is(why, len, text)) return number;
    YOYOASH_REASONS(YOYOASH_REASON_FIND)
#undef YOYOASH_REASON_FIND
    return YOYOASH_REASON_OTHER;
}

/* Returns the text of a number, as yoyoash_why has it after the number of the argument; NULL for a number that has none. */
static inline const char *yoyoash_reason_text(int32_t reason) {
#define YOYOASH_REASON_CASE(name, number, text) case number: return text;
    switch (reason) {
        YOYOASH_REASONS(YOYOASH_REASON_CASE)
    default: return NULL;
    }
#undef YOYOASH_REASON_CASE
}

/* Returns the number of the reason of the store's last refusal, as yoyoash_why has it: OUT_OF_MEMORY if there is no memory for its text. */
static inline int32_t yoyoash_reason_last(yoyoash_store *store, uint32_t *argument) {
    char why[128];
    size_t len = 0;
    *argument = 0;
    int32_t status = yoyoash_why(store, why, sizeof why, &len);
    if (status == YOYOASH_UNTOLD) return YOYOASH_REASON_OUT_OF_MEMORY;
    if (status != YOYOASH_VALUE) return YOYOASH_REASON_OTHER;
    return yoyoash_reason_of(why, len < sizeof why ? len : sizeof why, argument);
}

#ifdef __cplusplus
}
#endif
#endif
