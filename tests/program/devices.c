/* Replaces the reads and writes of a program (by LD_PRELOAD): a read of standard input and a write to standard output move a
   limited number of bytes, and one of the calls fails. tests/program/devices says how the program must end.

   DEVICES is "MOST READ WRITE FAULT": the most bytes of a call; the number of the read and of the write that fails, from 1, or
   0 if none does; and the number of the error, or 0 if the call moves no byte. */
#define _GNU_SOURCE
#include <errno.h>
#include <stdio.h>
#include <stdlib.h>
#include <sys/syscall.h>
#include <unistd.h>

static long most, bad_read, bad_write, fault;

__attribute__((constructor)) static void begin(void) {
    const char *words = getenv("DEVICES");
    if (!words || sscanf(words, "%ld %ld %ld %ld", &most, &bad_read, &bad_write, &fault) != 4) _exit(3);
}

/* Runs a call, or fails. */
static ssize_t call(long number, int file, const void *bytes, size_t count, long *bad) {
    if (*bad > 0 && --*bad == 0) {
        errno = fault;
        return fault ? -1 : 0;
    }
    return syscall(number, file, bytes, count < (size_t)most ? count : (size_t)most);
}

ssize_t read(int file, void *bytes, size_t count) {
    return file == 0 ? call(SYS_read, file, bytes, count, &bad_read) : syscall(SYS_read, file, bytes, count);
}

ssize_t write(int file, const void *bytes, size_t count) {
    return file == 1 ? call(SYS_write, file, bytes, count, &bad_write) : syscall(SYS_write, file, bytes, count);
}
