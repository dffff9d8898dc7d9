/* Runs a program repeatedly on one input (by LD_PRELOAD): first with no allocation refused, then once for each allocation
   that one line of the input takes, with that allocation refused. The program reads the input in three pieces: up to the line,
   the line, and the rest. So the allocations between two reads are those of the line. tests/program/refusals and .ci/refusals
   say how it must end.

   REFUSED is "FROM TO": the offsets of the first byte of the line and of the first byte after it. "0 0" means the allocations
   before the first read, "0 -1" all allocations of the program, and "-1 -1" none. For each run this prints a line
   "STATUS OUTPUT ERRORS" (the status as wait() returns it, and two numbers of bytes), and then the bytes of standard output
   and of standard error.

   "-2 -2" runs a program once, which must have parts that take no memory. It begins and ends such a part by a request of MARK bytes,
   which no machine has. Each allocation in a part is refused. The status is TAKEN if there was one, and MISSING if the program has
   no part, or one without an end.

   HELD, in place of REFUSED, is the number of an open file. Before each read of standard input, which then returns one line, this
   writes a line to the file: the number of blocks that were allocated and not freed. */
#define _GNU_SOURCE
#include <errno.h>
#include <fcntl.h>
#include <stdio.h>
#include <stdlib.h>
#include <string.h>
#include <sys/mman.h>
#include <sys/sendfile.h>
#include <sys/syscall.h>
#include <sys/wait.h>
#include <unistd.h>

extern void *__libc_malloc(size_t), *__libc_calloc(size_t, size_t), *__libc_realloc(void *, size_t), *__libc_memalign(size_t, size_t);
extern void __libc_free(void *);

/* A run that takes longer hangs. */
enum { SECONDS = 20 };
/* The most bytes that a read of one line returns. */
enum { LINE = 4096 };

static const size_t MARK = (size_t)1 << 60;
/* What wait() returns for the statuses 4 and 5. */
enum { TAKEN = 4 << 8, MISSING = 5 << 8 };

/* The number of allocations of this run so far, and the number of the refused one, from 1. */
static long taken, refused;
static long from = -1, to = -1;
/* Whether all allocations of this run are counted. */
static int counts_all;
/* The number of allocations before the line, and up to its end; that of marks, and of allocations refused between two. All runs
   share it. */
static struct { long before, end, marks, between; } *counted;
/* The file that HELD names, or -1, and the number of blocks that were allocated and not freed. */
static int held_file = -1;
static long held;

static int refuses(size_t size) {
    taken++;
    if (counts_all) counted->end = taken;
    if (from == -2 && size == MARK) counted->marks++;
    else if (from == -2 && counted->marks % 2) counted->between++;
    else if (taken != refused) return 0;
    errno = ENOMEM;
    return 1;
}

/* Counts a block, if there is one. */
static void *hold(void *block) {
    if (block) __atomic_fetch_add(&held, 1, __ATOMIC_SEQ_CST);
    return block;
}

void *malloc(size_t size) { return refuses(size) ? NULL : hold(__libc_malloc(size)); }
void *calloc(size_t count, size_t size) { return refuses(count * size) ? NULL : hold(__libc_calloc(count, size)); }
void *aligned_alloc(size_t alignment, size_t size) { return refuses(size) ? NULL : hold(__libc_memalign(alignment, size)); }

void free(void *block) {
    if (block) __atomic_fetch_sub(&held, 1, __ATOMIC_SEQ_CST);
    __libc_free(block);
}

void *realloc(void *old, size_t size) {
    if (refuses(size)) return NULL;
    void *block = __libc_realloc(old, size);
    return old ? block : hold(block);
}

int posix_memalign(void **place, size_t alignment, size_t size) {
    void *found = refuses(size) ? NULL : hold(__libc_memalign(alignment, size));
    if (!found) return ENOMEM;
    *place = found;
    return 0;
}

/* Reads one line, or the first bytes of a longer one. */
static ssize_t read_line(int file, char *buffer, size_t room) {
    ssize_t got = syscall(SYS_read, file, buffer, room < LINE ? room : LINE);
    char *end = got > 0 ? memchr(buffer, '\n', got) : NULL;
    if (!end) return got;
    lseek(file, end + 1 - (buffer + got), SEEK_CUR);
    return end + 1 - buffer;
}

/* Reads no further than the end of the piece. */
ssize_t read(int file, void *buffer, size_t room) {
    if (held_file >= 0 && file == 0) {
        dprintf(held_file, "%ld\n", held);
        return read_line(file, buffer, room);
    }
    long at = lseek(file, 0, SEEK_CUR), end = at < from ? from : at < to ? to : at + (long)room;
    if (counted && !refused && at == from && from < to) counted->before = taken;
    if (counted && !refused && at == to) counted->end = taken;
    return syscall(SYS_read, file, buffer, end - at < (long)room ? end - at : (long)room);
}

static void fail(const char *what) {
    perror(what);
    _exit(3);
}

static void copy(int file, off_t count) {
    for (off_t at = 0; at < count;)
        if (sendfile(1, file, &at, count - at) <= 0) fail("sendfile");
}

/* Starts a run with this allocation refused, and returns 1 in it. Once it has ended, prints how and returns 0. */
static int run(long which) {
    int output = memfd_create("output", 0), errors = memfd_create("errors", 0), status;
    pid_t child = fork();
    if (child == 0) {
        dup2(open("/proc/self/fd/0", O_RDONLY), 0);
        dup2(output, 1);
        dup2(errors, 2);
        alarm(SECONDS);
        taken = 0;
        refused = which;
        counts_all = which == 0 && from == 0 && to == -1;
        return 1;
    }
    if (child < 0 || waitpid(child, &status, 0) < 0) fail("fork");
    if (from == -2 && counted->between) status = TAKEN;
    else if (from == -2 && (counted->marks == 0 || counted->marks % 2)) status = MISSING;
    off_t written = lseek(output, 0, SEEK_END), reported = lseek(errors, 0, SEEK_END);
    dprintf(1, "%d %ld %ld\n", status, (long)written, (long)reported);
    copy(output, written);
    copy(errors, reported);
    close(output);
    close(errors);
    return 0;
}

__attribute__((constructor)) static void run_all(void) {
    const char *words = getenv("REFUSED"), *file = getenv("HELD");
    if (file) held_file = atoi(file);
    if (!words || sscanf(words, "%ld %ld", &from, &to) != 2) return;
    counted = mmap(NULL, sizeof *counted, PROT_READ | PROT_WRITE, MAP_SHARED | MAP_ANONYMOUS, -1, 0);
    if (counted == MAP_FAILED) fail("mmap");
    if (run(0)) return;
    for (long which = counted->before + 1; which <= counted->end; which++)
        if (run(which)) return;
    _exit(0);
}
