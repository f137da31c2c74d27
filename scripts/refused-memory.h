/* SPDX-License-Identifier: Apache-2.0 OR MIT */
/*
 * Memory that is refused, for a program in C that is linked with --wrap for malloc, realloc and free. While `left` is not
 * negative, so many allocations are granted, and the one after them is refused: alone, or with all after it. `held` counts
 * the octets that were given and not yet freed, and `most_held` is the most of them since it was 0. Each thread has its
 * own.
 */
#include <malloc.h>
#include <stdbool.h>
#include <stddef.h>

static _Thread_local long left = -1;
static _Thread_local bool alone, was_refused;
static _Thread_local size_t held, most_held;

void *__real_malloc(size_t size);
void *__real_realloc(void *old, size_t size);
void __real_free(void *old);

static bool is_refused(void)
{
    if (left < 0)
        return false;
    if (left > 0) {
        left--;
        return false;
    }
    was_refused = true;
    if (alone)
        left = -1;
    return true;
}

static void *counted(void *memory)
{
    held += malloc_usable_size(memory);
    most_held = held > most_held ? held : most_held;
    return memory;
}

void *__wrap_malloc(size_t size) { return is_refused() ? NULL : counted(__real_malloc(size)); }

/* Where the octets move, the old ones are held until they are copied. */
void *__wrap_realloc(void *old, size_t size)
{
    size_t old_size = malloc_usable_size(old);
    void *memory = is_refused() ? NULL : __real_realloc(old, size);
    if (memory == NULL)
        return NULL;
    held -= memory == old ? old_size : 0;
    counted(memory);
    held -= memory == old ? 0 : old_size;
    return memory;
}

void __wrap_free(void *old)
{
    held -= malloc_usable_size(old);
    __real_free(old);
}
