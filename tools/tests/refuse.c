/* Refuses memory: loaded before a program by LD_PRELOAD, it lets the Nth call of malloc or realloc fail, and no other one,
   where the environment says REFUSE=N. With REFUSE=0 none fails, and at the end standard error tells how many there were. */

#include <stddef.h>
#include <stdio.h>
#include <stdlib.h>

extern void *__libc_malloc(size_t size);
extern void *__libc_realloc(void *block, size_t size);

static long asked, refused = -1;

__attribute__((constructor)) static void begin(void) {
    const char *number = getenv("REFUSE");
    refused = number ? atol(number) : -1;
    asked = 0;
}

__attribute__((destructor)) static void end(void) {
    if (refused == 0)
        fprintf(stderr, "%ld\n", asked);
}

void *malloc(size_t size) {
    return ++asked == refused ? NULL : __libc_malloc(size);
}

void *realloc(void *block, size_t size) {
    return ++asked == refused ? NULL : __libc_realloc(block, size);
}
