/*
 * A limit of requests: so many a second, and what was not used is saved up to a bound. The time is handed in, in milliseconds.
 */
#ifndef LIMIT_H
#define LIMIT_H

#include <stdbool.h>
#include <stdint.h>

typedef struct limit {
    uint64_t at;   /* when `left` was true */
    uint64_t left; /* thousandths of a request */
} limit;

/* A limit that is full. */
static inline limit limit_full(uint32_t most, uint64_t now)
{
    return (limit){ now, (uint64_t)most * 1000 };
}

/* Whether one more request is within the limit, which then has it; the most that is saved up, and how many come a second. */
static inline bool limit_take(limit *l, uint32_t most, uint32_t a_second, uint64_t now)
{
    uint64_t full = (uint64_t)most * 1000, passed = now - l->at;
    l->left = passed > full / a_second ? full : l->left + passed * a_second; /* a thousandth of a second, of a request */
    l->left = l->left > full ? full : l->left;
    l->at = now;
    if (l->left < 1000)
        return false;
    l->left -= 1000;
    return true;
}

#endif
