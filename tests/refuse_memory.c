/*
 * A library to preload: of the requests for memory and for threads that a program makes, the one with
 * the number in the variable REFUSE, counted from 1 at the program's start, gets none. Then its bytes, or 0
 * for a thread, are written to file 9, so that a caller can tell whether there were so many, and which it
 * was; behind the word `less` where it asks for fewer bytes than its block has, so that some are given back.
 * tests/memory.sh builds and uses it.
 */
#define _GNU_SOURCE
#include <dlfcn.h>
#include <errno.h>
#include <malloc.h>
#include <pthread.h>
#include <stdio.h>
#include <stdlib.h>
#include <unistd.h>

extern void *__libc_malloc(size_t size);
extern void *__libc_calloc(size_t count, size_t size);
extern void *__libc_realloc(void *block, size_t size);
extern void *__libc_memalign(size_t align, size_t size);

static long left; /* requests up to the refused one; 0 or less where none is to come */

__attribute__((constructor)) static void start(void)
{
    const char *text = getenv("REFUSE");
    left = text ? atol(text) : 0;
}

static int is_refused_as(const char *word, size_t size)
{
    char text[32];
    if (__atomic_load_n(&left, __ATOMIC_SEQ_CST) <= 0 || __atomic_sub_fetch(&left, 1, __ATOMIC_SEQ_CST) != 0)
        return 0;
    errno = ENOMEM;
    return write(9, text, snprintf(text, sizeof text, "%s%zu", word, size)) > 0;
}

static int is_refused(size_t size)
{
    return is_refused_as("", size);
}

void *malloc(size_t size)
{
    return is_refused(size) ? NULL : __libc_malloc(size);
}

void *calloc(size_t count, size_t size)
{
    return is_refused(count * size) ? NULL : __libc_calloc(count, size);
}

void *realloc(void *block, size_t size)
{
    const char *word = size < malloc_usable_size(block) ? "less " : "";

    return is_refused_as(word, size) ? NULL : __libc_realloc(block, size);
}

void *aligned_alloc(size_t align, size_t size)
{
    return is_refused(size) ? NULL : __libc_memalign(align, size);
}

int posix_memalign(void **block, size_t align, size_t size)
{
    *block = is_refused(size) ? NULL : __libc_memalign(align, size);
    return *block ? 0 : ENOMEM;
}

int pthread_create(pthread_t *thread, const pthread_attr_t *attributes, void *(*run)(void *), void *with)
{
    int (*create)(pthread_t *, const pthread_attr_t *, void *(*)(void *), void *);
    *(void **)&create = dlsym(RTLD_NEXT, "pthread_create");
    return is_refused(0) ? EAGAIN : create(thread, attributes, run, with);
}
