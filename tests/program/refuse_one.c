/* Refuses one allocation of a program (by LD_PRELOAD), and then creates a file: REFUSED is the number of the allocation, from 1, and
   SEEN the file. tests/program/packets and tests/program/refused_threads.py say how the program must end. */
#include <errno.h>
#include <fcntl.h>
#include <stdlib.h>
#include <unistd.h>

extern void *__libc_malloc(size_t), *__libc_calloc(size_t, size_t);
extern void *__libc_realloc(void *, size_t), *__libc_memalign(size_t, size_t);
static long taken, refused;

__attribute__((constructor)) static void start(void) {
    refused = atol(getenv("REFUSED"));
    taken = 0;
}

static int refuses(void) {
    if (__atomic_add_fetch(&taken, 1, __ATOMIC_SEQ_CST) != refused) return 0;
    close(creat(getenv("SEEN"), 0600));
    errno = ENOMEM;
    return 1;
}

void *malloc(size_t size) { return refuses() ? NULL : __libc_malloc(size); }
void *calloc(size_t count, size_t size) { return refuses() ? NULL : __libc_calloc(count, size); }
void *realloc(void *old, size_t size) { return refuses() ? NULL : __libc_realloc(old, size); }
void *aligned_alloc(size_t align, size_t size) { return refuses() ? NULL : __libc_memalign(align, size); }
int posix_memalign(void **at, size_t align, size_t size) { return !refuses() && (*at = __libc_memalign(align, size)) ? 0 : ENOMEM; }
