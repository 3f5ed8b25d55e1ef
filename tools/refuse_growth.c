/* Refuses one allocation of a program that is started with this library before the C library: that with the number in
   REFUSED_GROWTH, counted from 1. tools/try_refused_growths.py builds and uses it. */
#include <stddef.h>
#include <stdlib.h>

extern void *__libc_malloc(size_t size);

static long made, refused;

void *malloc(size_t size)
{
    if (refused == 0) {
        const char *number = getenv("REFUSED_GROWTH");
        refused = number ? atol(number) : -1;
    }
    made += 1;
    return made == refused ? NULL : __libc_malloc(size);
}
