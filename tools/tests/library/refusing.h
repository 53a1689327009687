/* Allocations that are refused: the n-th alone, or the n-th and all behind it. Link what has this with
   -Wl,--wrap=malloc,--wrap=realloc,--wrap=free. */
#ifndef REFUSING_H
#define REFUSING_H

#include <stddef.h>

void *__real_malloc(size_t size);
void *__real_realloc(void *old, size_t size);
void __real_free(void *block);
void *__wrap_malloc(size_t size);
void *__wrap_realloc(void *old, size_t size);
void __wrap_free(void *block);

static int counting, all_behind;
static long asked_for, refused_at, refusals, live, calls;

static int is_refused(void) {
    if (!counting) return 0;
    asked_for++;
    int refused = refused_at != 0 && (asked_for == refused_at || (all_behind && asked_for > refused_at));
    refusals += refused;
    return refused;
}

void *__wrap_malloc(size_t size) {
    void *block = is_refused() ? NULL : __real_malloc(size);
    live += counting && block != NULL;
    return block;
}

void *__wrap_realloc(void *old, size_t size) {
    void *block = is_refused() ? NULL : __real_realloc(old, size);
    live += counting && old == NULL && block != NULL;
    return block;
}

void __wrap_free(void *block) {
    live -= counting && block != NULL;
    __real_free(block);
}

static void begin(long n) {
    counting = 1;
    asked_for = refusals = 0;
    refused_at = n;
}

/* Ends the counting, and says whether something was refused. */
static int ended(void) {
    counting = 0;
    calls++;
    return refusals > 0;
}

#endif
