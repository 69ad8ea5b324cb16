/*
 * The names under which code for Arm calls memcpy, memset and memmove, so that a host need only have these. All are weak:
 * a C library that has them too takes precedence.
 */
#include <stddef.h>

void *memcpy(void *, const void *, size_t);
void *memmove(void *, const void *, size_t);
void *memset(void *, int, size_t);

#define WEAK __attribute__((weak))
#define COPY(name, call) \
    WEAK void name(void *to, const void *from, size_t n); \
    void name(void *to, const void *from, size_t n) { call(to, from, n); }
/* the length comes before the value */
#define SET(name) \
    WEAK void name(void *to, size_t n, int value); \
    void name(void *to, size_t n, int value) { memset(to, value, n); }
#define CLEAR(name) \
    WEAK void name(void *to, size_t n); \
    void name(void *to, size_t n) { memset(to, 0, n); }

COPY(__aeabi_memcpy, memcpy)
COPY(__aeabi_memcpy4, memcpy)
COPY(__aeabi_memcpy8, memcpy)
COPY(__aeabi_memmove, memmove)
COPY(__aeabi_memmove4, memmove)
COPY(__aeabi_memmove8, memmove)
SET(__aeabi_memset)
SET(__aeabi_memset4)
SET(__aeabi_memset8)
CLEAR(__aeabi_memclr)
CLEAR(__aeabi_memclr4)
CLEAR(__aeabi_memclr8)
