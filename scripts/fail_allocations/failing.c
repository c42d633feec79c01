/* Loaded before the C library (LD_PRELOAD), makes allocations of a program fail: the one of the
   number FAILS_AT, from 1, and with FAILS_ON those after it too. With FAILS_AT=0 none fails, and their
   count is written to descriptor 9 when the program ends. */
#include <stdio.h>
#include <stdlib.h>

extern void *__libc_malloc(size_t size);
extern void *__libc_realloc(void *block, size_t size);

static long count, fails_at;
static int fails_on;

__attribute__((constructor)) static void begin(void) {
    fails_at = atol(getenv("FAILS_AT"));
    fails_on = getenv("FAILS_ON") != NULL;
    count = 0;
}

__attribute__((destructor)) static void end(void) {
    if (fails_at == 0)
        dprintf(9, "%ld\n", count);
}

static int fails(void) {
    count++;
    return fails_at != 0 && (count == fails_at || (fails_on && count > fails_at));
}

void *malloc(size_t size) {
    return fails() ? NULL : __libc_malloc(size);
}

void *realloc(void *block, size_t size) {
    return fails() ? NULL : __libc_realloc(block, size);
}
