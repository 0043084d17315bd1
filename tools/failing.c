// Makes calls of the C library fail in a program that is started with this library before it: see tools/fail.
//
// FAIL_CALL names the call: `memory`, `read`, `write`, `short-read`, `short-write` or `thread`. FAIL_NUMBER says which of the
// program's calls fails, from 1 on, and with FAIL_LATER=1 all later ones fail, too. FAIL_NOTE is the number of an open file
// that takes a line when this call fails, with the number of the file that was to be read or written, and at the end a line
// with the number of calls, if the program ends by itself.
#define _GNU_SOURCE
#include <dlfcn.h>
#include <errno.h>
#include <pthread.h>
#include <stdatomic.h>
#include <stdio.h>
#include <stdlib.h>
#include <string.h>
#include <sys/syscall.h>
#include <unistd.h>

extern void *__libc_malloc(size_t);
extern void *__libc_calloc(size_t, size_t);
extern void *__libc_realloc(void *, size_t);

// 0 until the library is set up: what happens before `main` is not counted.
static char kind;
static int is_short, later, note = -1;
static long number;
static atomic_long calls;

static void say(char first, long n)
{
    char line[32];
    int length = snprintf(line, sizeof line, "%c%ld\n", first, n);
    syscall(SYS_write, note, line, length);
}

// Whether this call, of a file or of -1, is one that fails.
static int fails(char called, int file)
{
    if (kind != called)
        return 0;
    long n = atomic_fetch_add(&calls, 1) + 1;
    if (n != number && !(later && n > number))
        return 0;
    int error = errno;
    // One line says that the later ones fail, too.
    if (n == number)
        say('f', file);
    errno = error;
    return 1;
}

void *malloc(size_t size)
{
    if (fails('m', -1)) {
        errno = ENOMEM;
        return NULL;
    }
    return __libc_malloc(size);
}

void *calloc(size_t count, size_t size)
{
    if (fails('m', -1)) {
        errno = ENOMEM;
        return NULL;
    }
    return __libc_calloc(count, size);
}

void *realloc(void *old, size_t size)
{
    if (fails('m', -1)) {
        errno = ENOMEM;
        return NULL;
    }
    return __libc_realloc(old, size);
}

ssize_t read(int file, void *into, size_t size)
{
    if (size > (size_t)is_short && fails('r', file)) {
        if (is_short)
            return syscall(SYS_read, file, into, 1);
        errno = EIO;
        return -1;
    }
    return syscall(SYS_read, file, into, size);
}

ssize_t write(int file, const void *from, size_t size)
{
    if (size > (size_t)is_short && fails('w', file)) {
        if (is_short)
            return syscall(SYS_write, file, from, 1);
        errno = EIO;
        return -1;
    }
    return syscall(SYS_write, file, from, size);
}

int pthread_create(pthread_t *thread, const pthread_attr_t *how, void *(*what)(void *), void *given)
{
    static int (*create)(pthread_t *, const pthread_attr_t *, void *(*)(void *), void *);
    if (fails('t', -1))
        return EAGAIN;
    if (!create)
        create = dlsym(RTLD_NEXT, "pthread_create");
    return create(thread, how, what, given);
}

__attribute__((constructor)) static void set_up(void)
{
    const char *call = getenv("FAIL_CALL");
    if (!call || !getenv("FAIL_NUMBER") || !getenv("FAIL_NOTE"))
        return;
    number = atol(getenv("FAIL_NUMBER"));
    note = atoi(getenv("FAIL_NOTE"));
    later = getenv("FAIL_LATER") != NULL;
    is_short = strncmp(call, "short-", 6) == 0;
    kind = call[is_short ? 6 : 0];
}

// The program ends by `_exit`, which runs no destructors.
void _exit(int status)
{
    if (kind) {
        kind = 0;
        say('c', atomic_load(&calls));
    }
    for (;;)
        syscall(SYS_exit_group, status);
}
