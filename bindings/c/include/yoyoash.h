/* Yoyoash for C: an in-memory store of Erlang terms in your process. See docs/c.md for a tour and for what is proved.

   Rules for callers. Nothing checks them, and the guarantees hold only if you keep them:
   - Start with `yoyoash_store store = {0};`, which is a closed store. Move the struct, never copy it. Only the library
     reads or writes its contents. The same holds for a yoyoash_request.
   - One call at a time may use a store, and one a request. Any thread may make the call, if a lock, or the start or end of a thread,
     orders the calls. Never use them in a signal handler, or in a child forked from a process with threads.
   - The stack of a thread that makes calls has room for YOYOASH_STACK bytes, which the deepest terms need.
   - Pass no NULL pointer, also when the length is 0. The memory that the arguments of one call point to must not overlap.
     Lengths must be below 2^63. */
#ifndef YOYOASH_H
#define YOYOASH_H

#include <stddef.h>
#include <stdint.h>
#include <string.h>

#define YOYOASH_VERSION "0.1.0"
#define YOYOASH_VERSION_NUMBER 100 /* major * 10000 + minor * 100 + patch */

/* The bytes of stack that a call may take, with a term of 128 levels. A call in a thread with a smaller stack may end the program. */
#define YOYOASH_STACK 262144u

/* The limits that the program ets_script uses. */
#define YOYOASH_DEFAULT_PROCESSES 4096u
#define YOYOASH_DEFAULT_TABLES 65536u
#define YOYOASH_DEFAULT_OBJECTS 1000000u

/* The largest limits, which cost nothing until they are used. A store keeps about 53 bytes of each process that ended, and 20 of
   each table that was deleted. */
#define YOYOASH_MAX_PROCESSES 4294967295u
#define YOYOASH_MAX_TABLES 4294967295u
#define YOYOASH_MAX_OBJECTS 4294967295u

#ifdef __cplusplus
extern "C" {
#endif

/* A store. {0} is a closed one. */
typedef struct yoyoash_store {
    void *opaque[2];
} yoyoash_store;

/* A call that is read, run and answered by three functions. Only yoyoash_request_run uses a store. {0} is a closed request. */
typedef struct yoyoash_request {
    void *opaque[2];
} yoyoash_request;

/* The status of a call. After every status except VALUE and UNTOLD the call was not made and no table has changed. */
typedef enum yoyoash_status {
    YOYOASH_VALUE = 0,        /* the call was made, and its reply is a term */
    YOYOASH_BADARG = 1,       /* refused: the call's name, its arguments or the access right */
    YOYOASH_SYSTEM_LIMIT = 2, /* refused: the call would exceed a limit; open the store with larger ones */
    YOYOASH_NO_PROCESS = 3,   /* refused: the process was never spawned, or has exited */
    YOYOASH_NO_MEMORY = 4,    /* out of memory */
    YOYOASH_SYNTAX = 5,       /* the text, or the term, is not a call; *len is the offset of its first fault */
    YOYOASH_CLOSED = 6,       /* the store is closed, or the request is or has no call */
    YOYOASH_UNTOLD = 7        /* the call was made, but there was no memory for its reply's bytes: try yoyoash_reply or
                                 yoyoash_reply_external */
} yoyoash_status;

/* Opens a store with these limits: processes and tables that it may ever have, and objects in one table. An open store is closed
   first. Returns VALUE or NO_MEMORY; NO_MEMORY changes nothing. */
int32_t yoyoash_open(yoyoash_store *store, uint32_t max_processes, uint32_t max_tables, uint32_t max_objects);

/* Opens a store as yoyoash_open does, whose tables hash their keys with this seed. Use it if strangers choose keys, and draw the seed
   at random: yoyoash_open has a fixed hash, and thousands of keys with one hash make a table slow. */
int32_t yoyoash_open_with_seed(yoyoash_store *store, uint32_t max_processes, uint32_t max_tables, uint32_t max_objects, uint64_t seed);

/* Starts a process of the store, and ends it. A process owns tables; its number is used once. When a process ends, each of its
   tables goes to its heir or is deleted. */
int32_t yoyoash_spawn(yoyoash_store *store, uint32_t pid);
int32_t yoyoash_exit(yoyoash_store *store, uint32_t pid);

/* Makes a call for a process. The text is a tuple of the call's name and its arguments, such as `{lookup,t,a}`, with nothing after it.
   After VALUE, *len is the length of the reply's text, and `out` holds its first bytes, at most out_size. There is no NUL after
   the text. If *len > out_size, fetch the reply with yoyoash_reply into a larger buffer. After SYNTAX, *len is the offset of the
   fault; after other statuses it is 0. */
int32_t yoyoash_call(yoyoash_store *store, uint32_t pid, const char *text, size_t text_len, char *out, size_t out_size, size_t *len);

/* Copies the text of the last reply to a call, spawn or exit that was made or refused, for example into a larger buffer. Makes no call. */
int32_t yoyoash_reply(yoyoash_store *store, char *out, size_t out_size, size_t *len);

/* Makes a call for a process, in Erlang's External Term Format. The bytes are one term, 131 first: a tuple of the call's name
   and the list of its arguments, such as `{lookup, [t, a]}`, with nothing after it. After VALUE, *len is the number of the reply's bytes in
   this format, 131 first, and `out` holds the first of them, at most out_size. If *len > out_size, fetch the reply with
   yoyoash_reply_external into a larger buffer. After SYNTAX, *len is the offset of the fault; after other statuses it is 0.
   UNTOLD is also returned for a reply of 2^32 bytes or more. */
int32_t yoyoash_call_external(yoyoash_store *store, uint32_t pid, const uint8_t *call, size_t call_len, uint8_t *out, size_t out_size, size_t *len);

/* Copies the last reply in Erlang's External Term Format, whichever call was made or refused. Makes no call. */
int32_t yoyoash_reply_external(yoyoash_store *store, uint8_t *out, size_t out_size, size_t *len);

/* Copies the reason why the last call, spawn or exit was refused, such as `argument 1: no such table`; *len is 0 if it was not
   refused. No reason of this version has over 100 bytes. Returns VALUE, CLOSED, or UNTOLD if there was no memory for the text. Makes no call. */
int32_t yoyoash_why(yoyoash_store *store, char *out, size_t out_size, size_t *len);

/* Closes a store and frees its memory. A closed store stays closed. */
void yoyoash_close(yoyoash_store *store);

/* Reads the call of a process into a request, from a text or from bytes, without a store. A closed request is opened. Returns VALUE, and
   *len is 0; SYNTAX, and *len is the offset of the fault; or NO_MEMORY. After these two the request has no call. Its last reply stays. */
int32_t yoyoash_request_read(yoyoash_request *request, uint32_t pid, const char *text, size_t text_len, size_t *len);
int32_t yoyoash_request_read_external(yoyoash_request *request, uint32_t pid, const uint8_t *call, size_t call_len, size_t *len);

/* Makes the call of a request. The reply and the reason of a refusal go to the request; those of the store stay. Each further run
   makes the call again. After NO_MEMORY the reply of the request is NO_PROCESS. If threads share the store, only this function needs the lock. */
int32_t yoyoash_request_run(yoyoash_store *store, yoyoash_request *request);

/* Copies the reply to the last call of a request that was run, as yoyoash_reply and yoyoash_reply_external do, without a store. */
int32_t yoyoash_request_reply(yoyoash_request *request, char *out, size_t out_size, size_t *len);
int32_t yoyoash_request_reply_external(yoyoash_request *request, uint8_t *out, size_t out_size, size_t *len);

/* Copies the reason why the last run was refused, or why the last text or bytes are not a call, as yoyoash_why does. */
int32_t yoyoash_request_why(yoyoash_request *request, char *out, size_t out_size, size_t *len);

/* Closes a request and frees its memory. */
void yoyoash_request_close(yoyoash_request *request);

/* Makes a call whose text ends with a NUL, such as a literal. */
static inline int32_t yoyoash_call_text(yoyoash_store *store, uint32_t pid, const char *text, char *out, size_t out_size, size_t *len) {
    return yoyoash_call(store, pid, text, strlen(text), out, out_size, len);
}

/* Returns the name of a status: "badarg" for YOYOASH_BADARG. */
static inline const char *yoyoash_status_text(int32_t status) {
    switch (status) {
    case YOYOASH_VALUE: return "value";
    case YOYOASH_BADARG: return "badarg";
    case YOYOASH_SYSTEM_LIMIT: return "system_limit";
    case YOYOASH_NO_PROCESS: return "no process";
    case YOYOASH_NO_MEMORY: return "no memory";
    case YOYOASH_SYNTAX: return "syntax";
    case YOYOASH_CLOSED: return "closed";
    case YOYOASH_UNTOLD: return "untold";
    default: return "unknown status";
    }
}

#ifdef __cplusplus
}
#endif
#endif
