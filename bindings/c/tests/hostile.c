/* Reads replies whose bytes were changed or cut, each in memory of exactly its size, with all functions of a reader. Compile it with
   -fsanitize=address,undefined, which ends the program at the first byte that is read out of bounds. */
#include <stdio.h>
#include <stdlib.h>
#include <yoyoash_term.h>

static unsigned long got, refused;

/* Gets every term of a reader by the function for its type, and the elements of rows too. */
static void walk(yoyoash_term_reader at) {
    yoyoash_term_reader inside;
    const uint8_t *bytes;
    const char *name;
    size_t len;
    int64_t high;
    uint64_t low;
    uint32_t number;
    while (at.left > 0) {
        size_t left = at.left;
        yoyoash_term_get_word(&at, "true");
        if (yoyoash_term_get_list(&at, &inside) || yoyoash_term_get_tuple(&at, &inside)) walk(inside);
        else if (yoyoash_term_get_binary(&at, &bytes, &len)) for (size_t place = 0; place < len; place++) got += bytes[place] & 1;
        else if (yoyoash_term_get_atom(&at, &name, &len)) for (size_t place = 0; place < len; place++) got += name[place] & 1;
        else if (!yoyoash_term_get_integer(&at, &high) && !yoyoash_term_get_integer128(&at, &high, &low) && !yoyoash_term_get_pid(&at, &number))
            yoyoash_term_get_table(&at, &number);
        if (at.left == left && !yoyoash_term_skip(&at)) return;
        got++;
    }
}

/* Reads these bytes in memory of their size: as a reply, and, without the check of the whole, as elements. */
static void read_copy(const uint8_t *bytes, size_t len) {
    uint8_t *copy = (uint8_t *)malloc(len > 0 ? len : 1);
    yoyoash_term_reader at;
    if (!copy) exit(1);
    memcpy(copy, bytes, len);
    if (yoyoash_term_read(&at, copy, len)) walk(at);
    else refused++;
    yoyoash_term_reader unchecked = {copy, copy + len, SIZE_MAX, len % 2 == 0};
    if (len < 64) walk(unchecked);
    uint32_t argument;
    got += (unsigned long)yoyoash_reason_of((const char *)copy, len, &argument);
    free(copy);
}

/* Builds a term that has all forms. */
static void build(yoyoash_term *term) {
    yoyoash_term_begin(term);
    yoyoash_term_open_list(term);
    for (int round = 0; round < 2; round++) {
        yoyoash_term_open_tuple(term);
        yoyoash_term_put_atom(term, "true"), yoyoash_term_put_string(term, "text"), yoyoash_term_put_integer(term, round);
        yoyoash_term_put_integer(term, -300), yoyoash_term_put_integer128(term, -5, 9), yoyoash_term_put_pid(term, 3), yoyoash_term_put_table(term, 4);
        yoyoash_term_open_list(term), yoyoash_term_put_integer(term, 1), yoyoash_term_close(term);
        yoyoash_term_open_list(term), yoyoash_term_close(term);
        yoyoash_term_close(term);
    }
    yoyoash_term_close(term);
    if (yoyoash_term_end(term) != YOYOASH_TERM_WELL) exit(1);
}

int main(void) {
    static const uint8_t string[] = "\x83l\0\0\0\2k\0\3abch\2k\0\1ad\0\2okj", tags[] = {88, 90, 97, 98, 100, 104, 105, 106, 107, 108, 109, 110, 119, 0, 255};
    yoyoash_term term = {0};
    unsigned random = 1;
    build(&term);
    for (size_t len = 0; len <= term.len; len++) read_copy(term.bytes, len);
    for (size_t len = 0; len < sizeof string; len++) read_copy(string, len);
    read_copy((const uint8_t *)"argument 12: no such table", 26), read_copy((const uint8_t *)"argument 1234", 13), read_copy((const uint8_t *)"only ", 5);
    for (size_t place = 0; place < term.len; place++)
        for (int byte = 0; byte < 256; byte++) {
            uint8_t kept = term.bytes[place];
            term.bytes[place] = (uint8_t)byte, read_copy(term.bytes, term.len), read_copy(term.bytes, place + 1), term.bytes[place] = kept;
        }
    for (int each = 0; each < 100000; each++) {
        uint8_t bytes[40];
        for (size_t place = 0; place < sizeof bytes; place++) {
            random = random * 1103515245u + 12345u;
            bytes[place] = random >> 16 & 1 ? tags[(random >> 17) % sizeof tags] : (uint8_t)((random >> 17) % 4);
        }
        bytes[0] = 131, read_copy(bytes, random >> 16 & 31);
    }
    yoyoash_term_free(&term);
    if (got < 1000 || refused < 1000) return 1;
    return 0;
}
