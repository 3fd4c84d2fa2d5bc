/* Refuses one request for memory of the program that this is loaded into: the one whose number, from 1, is in REFUSE_AT. At the
 * end it writes how many requests there were to the file that REFUSE_COUNT names, where it names one. A program that may start threads
 * ends by _exit, which runs no destructor; its requests are counted over all threads. */
#define _GNU_SOURCE
#include <dlfcn.h>
#include <errno.h>
#include <stdatomic.h>
#include <stdio.h>
#include <stdlib.h>
#include <sys/syscall.h>
#include <unistd.h>

static atomic_ulong requests;
static unsigned long refused;
static void *(*next_malloc)(size_t);
static void *(*next_realloc)(void *, size_t);

/* The first request comes before the program has a second thread. */
static void begin(void)
{
    refused = strtoul(getenv("REFUSE_AT"), NULL, 10);
    next_malloc = (void *(*)(size_t))dlsym(RTLD_NEXT, "malloc");
    next_realloc = (void *(*)(void *, size_t))dlsym(RTLD_NEXT, "realloc");
}

static int is_refused(void)
{
    unsigned long request = atomic_fetch_add(&requests, 1) + 1;
    if (request == 1)
        begin();
    return request == refused;
}

void *malloc(size_t size)
{
    if (is_refused()) {
        errno = ENOMEM;
        return NULL;
    }
    return next_malloc(size);
}

void *realloc(void *old, size_t size)
{
    if (is_refused()) {
        errno = ENOMEM;
        return NULL;
    }
    return next_realloc(old, size);
}

__attribute__((destructor)) static void tell(void)
{
    unsigned long count = atomic_load(&requests);
    const char *name = getenv("REFUSE_COUNT");
    FILE *out = name ? fopen(name, "w") : NULL;
    if (out) {
        fprintf(out, "%lu\n", count);
        fclose(out);
    }
}

void _exit(int status)
{
    tell();
    for (;;)
        syscall(SYS_exit_group, status);
}
