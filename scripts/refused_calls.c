/* A preloaded library: refuses one call for memory, fails one read of standard input or one write of standard output, or interrupts them.
   REFUSE=N: the Nth call of malloc, calloc or realloc answers a null pointer. FAIL_READ=N, FAIL_WRITE=N: the Nth read of 0 or write of 1
   ends with EIO. INTERRUPT=1: two of three reads of 0 and writes of 1 end with EINTR, and the third write moves 7 bytes at most.
   COUNT=1: the numbers of calls for memory, reads and writes are written to standard error at the end.
   cc -O2 -shared -fPIC -o refused_calls.so refused_calls.c; scripts/refused_calls.py builds and uses it. */
#define _GNU_SOURCE
#include <errno.h>
#include <stddef.h>
#include <stdio.h>
#include <stdlib.h>
#include <sys/syscall.h>
#include <unistd.h>

extern void *__libc_malloc(size_t), *__libc_calloc(size_t, size_t), *__libc_realloc(void *, size_t);
static long calls, reads, writes, refused_call = -1, failed_read, failed_write, interrupts;
static int is_ready;

static long number(const char *name) {
    char *value = getenv(name);
    return value ? atol(value) : 0;
}

static void begin(void) {
    if (is_ready)
        return;
    is_ready = 1;
    refused_call = number("REFUSE");
    failed_read = number("FAIL_READ");
    failed_write = number("FAIL_WRITE");
    interrupts = number("INTERRUPT");
}

static int is_refused(void) {
    begin();
    calls++;
    return calls == refused_call;
}

void *malloc(size_t size) { return is_refused() ? 0 : __libc_malloc(size); }
void *calloc(size_t count, size_t size) { return is_refused() ? 0 : __libc_calloc(count, size); }
void *realloc(void *old, size_t size) { return is_refused() ? 0 : __libc_realloc(old, size); }

ssize_t read(int file, void *bytes, size_t count) {
    begin();
    if (file == 0) {
        reads++;
        if (reads == failed_read || (interrupts && reads % 3)) {
            errno = reads == failed_read ? EIO : EINTR;
            return -1;
        }
    }
    return syscall(SYS_read, file, bytes, count);
}

ssize_t write(int file, const void *bytes, size_t count) {
    begin();
    if (file == 1) {
        writes++;
        if (writes == failed_write || (interrupts && writes % 3)) {
            errno = writes == failed_write ? EIO : EINTR;
            return -1;
        }
        if (interrupts && count > 7)
            count = 7;
    }
    return syscall(SYS_write, file, bytes, count);
}

__attribute__((destructor)) static void end(void) {
    char text[100];
    if (getenv("COUNT"))
        syscall(SYS_write, 2, text, snprintf(text, sizeof text, "%ld %ld %ld\n", calls, reads, writes));
}
