/* SPDX-License-Identifier: Apache-2.0 OR MIT */
/*
 * A malloc and a realloc that refuse an allocation, for a program that is run with this library in LD_PRELOAD. The variable
 * REFUSED_ALLOCATION has its number, counted from 1 in main; with a plus sign after it all that follow are refused too.
 * Into the file with the name REFUSED_MARK an octet is written when one is refused.
 */
#define _GNU_SOURCE
#include <dlfcn.h>
#include <fcntl.h>
#include <stdbool.h>
#include <stdlib.h>
#include <string.h>
#include <unistd.h>

/* While it is 0 or less, nothing is refused. Else it is 1 when the next allocation is to be refused. */
static long left;
static bool with_others;

__attribute__((constructor)) static void begin(void)
{
    const char *number = getenv("REFUSED_ALLOCATION");
    if (number == NULL)
        return;
    left = strtol(number, NULL, 10);
    with_others = strchr(number, '+') != NULL;
}

static void mark(void)
{
    const char *name = getenv("REFUSED_MARK");
    int file = name != NULL ? open(name, O_WRONLY | O_CREAT | O_TRUNC, 0644) : -1;
    if (file < 0 || write(file, "1", 1) != 1)
        abort();
    close(file);
}

static bool is_refused(void)
{
    if (left <= 0)
        return false;
    if (left > 1) {
        left--;
        return false;
    }
    mark();
    if (!with_others)
        left = 0;
    return true;
}

/* The function of this name that the program would have without this library. */
static void find(void *function, const char *name)
{
    void *found = dlsym(RTLD_NEXT, name);
    memcpy(function, &found, sizeof found);
}

void *malloc(size_t size)
{
    static void *(*next)(size_t);
    if (next == NULL)
        find(&next, "malloc");
    return is_refused() ? NULL : next(size);
}

void *realloc(void *old, size_t size)
{
    static void *(*next)(void *, size_t);
    if (next == NULL)
        find(&next, "realloc");
    return is_refused() ? NULL : next(old, size);
}
