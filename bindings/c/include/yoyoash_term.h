/* Yoyoash for C: builds calls from values, and reads replies, so that no caller writes or parses a text. Link nothing else.

   - yoyoash_term_build.h and yoyoash_term_put.h build a call. A string of the caller becomes a binary or an atom, and never a
     part of the call's form.
   - yoyoash_term_read.h and yoyoash_term_get.h read a reply. They never read past the length that they are given, whatever the
     bytes are.
   - yoyoash_reason.h gives each reason of a refusal a number.

   These headers are plain C over yoyoash.h: C11 or C++17. They are tested, and not proved. */
#ifndef YOYOASH_TERM_H
#define YOYOASH_TERM_H

#include <yoyoash_reason.h>
#include <yoyoash_term_get.h>

#ifdef __cplusplus
extern "C" {
#endif

/* Hands the store bytes that have the fault of a call that was not built, so that yoyoash_why and yoyoash_reason_last describe this
   call: a bad atom, too many levels, or bytes that end inside a term for all other faults. Nothing else of the store changes. */
static inline void yoyoash_term_report(yoyoash_store *store, uint32_t pid, int32_t fault) {
    uint8_t bytes[1 + 2 * (YOYOASH_TERM_LEVELS + 1)] = {YOYOASH_TAG_VERSION, YOYOASH_TAG_ATOM, 1, 0}, none[1];
    size_t len = fault == YOYOASH_TERM_BAD_ATOM ? 4 : fault == YOYOASH_TERM_TOO_DEEP ? sizeof bytes : 1;
    for (size_t at = 1; at < len && len == sizeof bytes; at += 2) {
        bytes[at] = YOYOASH_TAG_TUPLE;
        bytes[at + 1] = 1;
    }
    yoyoash_call_external(store, pid, bytes, len, none, 0, &len);
}

/* Ends a call that was built and makes it for a process. After VALUE the reply is in `reply`, whose memory grows as needed.
   Returns the status. Without a whole call nothing is made: NO_MEMORY, or SYNTAX, and call->fault says why. UNTOLD: the call was
   made, but there is no room for its reply. yoyoash_why and yoyoash_reason_last describe this call. `call` and `reply` are two
   different terms. */
static inline int32_t yoyoash_term_make(yoyoash_store *store, uint32_t pid, yoyoash_term *call, yoyoash_term *reply) {
    int32_t fault = yoyoash_term_end(call);
    yoyoash_term_clear(reply);
    if (fault == YOYOASH_TERM_WELL && !reply->bytes && !yoyoash_term_grow(reply, 256)) fault = YOYOASH_TERM_NO_MEMORY;
    if (fault != YOYOASH_TERM_WELL) {
        yoyoash_term_report(store, pid, fault);
        return fault == YOYOASH_TERM_NO_MEMORY ? YOYOASH_NO_MEMORY : YOYOASH_SYNTAX;
    }
    size_t len = 0;
    int32_t status = yoyoash_call_external(store, pid, call->bytes, call->len, reply->bytes, reply->size, &len);
    if (status != YOYOASH_VALUE) return status;
    if (len > reply->size) {
        if (!yoyoash_term_grow(reply, len)) return YOYOASH_UNTOLD;
        status = yoyoash_reply_external(store, reply->bytes, reply->size, &len);
    }
    reply->len = status == YOYOASH_VALUE ? len : 0;
    return status;
}

#ifdef __cplusplus
}
#endif
#endif
