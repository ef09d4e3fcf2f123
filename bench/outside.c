// Stands between the program and the C library, for bench/outside: counts its calls of each kind, and lets one fail.
//
// FAIL=KIND:N[+][:HOW]  the N-th call of a kind (malloc, read, write, open), and with + each one after it, fails; HOW is
//                       `short` (half of the bytes), `interrupted` (EINTR once), or nothing: ENOMEM, EIO, ENOSPC, EACCES.
// COUNTS=FILE           where the number of calls of each kind is written when the program ends.
#define _GNU_SOURCE
#include <dlfcn.h>
#include <errno.h>
#include <fcntl.h>
#include <stdarg.h>
#include <stdio.h>
#include <stdlib.h>
#include <string.h>
#include <unistd.h>

enum kind { MALLOC, READ, WRITE, OPEN, KINDS };
static const char *names[KINDS] = {"malloc", "read", "write", "open"};
static unsigned long counts[KINDS], number;
static int kind = -1, on, half, interrupted;

__attribute__((constructor)) static void begin(void) {
    const char *plan = getenv("FAIL"), *at = plan ? strchr(plan, ':') : NULL;
    for (int k = 0; at && k < KINDS; k++)
        if (!strncmp(plan, names[k], at - plan)) kind = k;
    if (!at) return;
    char *end;
    number = strtoul(at + 1, &end, 10);
    on = *end == '+';
    half = strstr(end, "short") != NULL;
    interrupted = strstr(end, "interrupted") != NULL;
}

static int fails(int k) {
    unsigned long n = ++counts[k];
    return k == kind && (n == number || (on && n > number));
}

#define REAL(name) ((__typeof__(&name))dlsym(RTLD_NEXT, #name))

void *malloc(size_t size) {
    static void *(*real)(size_t);
    if (!real) real = REAL(malloc);
    if (fails(MALLOC)) return errno = ENOMEM, NULL;
    return real(size);
}

void *realloc(void *old, size_t size) {
    static void *(*real)(void *, size_t);
    if (!real) real = REAL(realloc);
    if (fails(MALLOC)) return errno = ENOMEM, NULL;
    return real(old, size);
}

ssize_t read(int file, void *into, size_t size) {
    static ssize_t (*real)(int, void *, size_t);
    if (!real) real = REAL(read);
    if (!fails(READ)) return real(file, into, size);
    if (half) return real(file, into, (size + 1) / 2);
    return errno = interrupted ? EINTR : EIO, -1;
}

ssize_t write(int file, const void *from, size_t size) {
    static ssize_t (*real)(int, const void *, size_t);
    if (!real) real = REAL(write);
    if (!fails(WRITE)) return real(file, from, size);
    if (half) return real(file, from, (size + 1) / 2);
    return errno = interrupted ? EINTR : ENOSPC, -1;
}
ssize_t __write(int file, const void *from, size_t size) { return write(file, from, size); }

int open(const char *name, int flags, ...) {
    static int (*real)(const char *, int, ...);
    if (!real) real = REAL(open);
    va_list more;
    va_start(more, flags);
    int mode = flags & O_CREAT ? va_arg(more, int) : 0;
    va_end(more);
    if (fails(OPEN)) return errno = EACCES, -1;
    return real(name, flags, mode);
}

__attribute__((destructor)) static void end(void) {
    const char *name = getenv("COUNTS");
    FILE *file = name ? fopen(name, "w") : NULL;
    unsigned long seen[KINDS];
    memcpy(seen, counts, sizeof seen);
    for (int k = 0; file && k < KINDS; k++) fprintf(file, "%s %lu\n", names[k], seen[k]);
    if (file) fclose(file);
}
