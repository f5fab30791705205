/*
 * An allocator that refuses, for LD_PRELOAD:
 *
 *     cc -std=c99 -O2 -fPIC -shared -o failing_allocator.so failing_allocator.c -ldl
 *
 * A growth is a call of malloc, calloc or realloc, by the program or by the C library for it, from the program's start on,
 * counted from 1.
 *
 *     GROWTH=N      the Nth growth is refused, as where there is no memory: NULL, and ENOMEM
 *     GROWTH=N..    it and all that follow
 *     GROWTHS=FILE  at the first refusal the line `refused` is added to the file, and at the end how many growths there were
 *
 * A realloc that is refused leaves what it was given. What the program starts in its turn isn't preloaded.
 */
#define _GNU_SOURCE

#include <errno.h>
#include <fcntl.h>
#include <stdio.h>
#include <stdlib.h>
#include <string.h>
#include <sys/syscall.h>
#include <unistd.h>

/* glibc's own, under names that are there for this */
extern void *__libc_malloc(size_t size);
extern void *__libc_calloc(size_t count, size_t size);
extern void *__libc_realloc(void *old, size_t size);

static int is_counting;
static unsigned long growths, refused, goes_on;
static const char *path;

static void tell(const char *text)
{
    int kept = errno, file = path != NULL ? open(path, O_WRONLY | O_APPEND | O_CREAT | O_CLOEXEC, 0666) : -1;
    if (file >= 0) {
        if (write(file, text, strlen(text)) < 0)
            _exit(99);
        close(file);
    }
    errno = kept;
}

static int is_refused(void)
{
    if (!is_counting)
        return 0;
    growths++;
    if (refused == 0 || growths < refused || (growths > refused && !goes_on))
        return 0;
    if (growths == refused)
        tell("refused\n");
    errno = ENOMEM;
    return 1;
}

void *malloc(size_t size)
{
    return is_refused() ? NULL : __libc_malloc(size);
}

void *calloc(size_t count, size_t size)
{
    return is_refused() ? NULL : __libc_calloc(count, size);
}

void *realloc(void *old, size_t size)
{
    return is_refused() ? NULL : __libc_realloc(old, size);
}

__attribute__((constructor)) static void begin(void)
{
    const char *growth = getenv("GROWTH");
    path = getenv("GROWTHS");
    if (growth != NULL) {
        char *end;
        refused = strtoul(growth, &end, 10);
        goes_on = strcmp(end, "..") == 0;
    }
    unsetenv("LD_PRELOAD");
    is_counting = 1;
}

__attribute__((destructor)) static void end(void)
{
    char text[32];
    is_counting = 0;
    snprintf(text, sizeof text, "%lu\n", growths);
    tell(text);
}

/* A program with threads ends without its destructors. */
void _exit(int status)
{
    end();
    syscall(SYS_exit_group, status);
    __builtin_unreachable();
}
