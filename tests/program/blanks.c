/* Gives a program blank lines as its standard input (by LD_PRELOAD), one byte a read and without the system: READS is their
   number of bytes. tests/program/devices says how the program must end. */
#define _GNU_SOURCE
#include <stdlib.h>
#include <sys/syscall.h>
#include <unistd.h>

/* The number of bytes of a line. */
enum { LENGTH = 64 };
static long left;

__attribute__((constructor)) static void begin(void) { left = atol(getenv("READS")); }

ssize_t read(int file, void *bytes, size_t size) {
    if (file != 0) return syscall(SYS_read, file, bytes, size);
    if (left == 0 || size == 0) return 0;
    *(char *)bytes = left-- % LENGTH ? ' ' : '\n';
    return 1;
}
