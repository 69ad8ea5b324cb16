/* What a host without a C library must have: for all processors four functions, for the smallest Arm two that its compiler's
   own library has otherwise. The empty asm keeps the compiler from making calls of these loops. */
#include <stddef.h>
#include <stdint.h>

void *memcpy(void *to, const void *from, size_t n);
void *memmove(void *to, const void *from, size_t n);
void *memset(void *to, int value, size_t n);
int memcmp(const void *a, const void *b, size_t n);
size_t strlen(const char *text);
#define STEP __asm__ volatile("" ::: "memory")

void *memcpy(void *to, const void *from, size_t n)
{
    for (size_t i = 0; i < n; i++) {
        ((uint8_t *)to)[i] = ((const uint8_t *)from)[i];
        STEP;
    }
    return to;
}

void *memmove(void *to, const void *from, size_t n)
{
    if ((uintptr_t)to <= (uintptr_t)from)
        return memcpy(to, from, n);
    for (size_t i = n; i > 0; i--) {
        ((uint8_t *)to)[i - 1] = ((const uint8_t *)from)[i - 1];
        STEP;
    }
    return to;
}

void *memset(void *to, int value, size_t n)
{
    for (size_t i = 0; i < n; i++) {
        ((uint8_t *)to)[i] = (uint8_t)value;
        STEP;
    }
    return to;
}

int memcmp(const void *a, const void *b, size_t n)
{
    for (size_t i = 0; i < n; i++) {
        int difference = ((const uint8_t *)a)[i] - ((const uint8_t *)b)[i];
        if (difference != 0)
            return difference;
        STEP;
    }
    return 0;
}

size_t strlen(const char *text)
{
    size_t n = 0;
    while (text[n] != '\0')
        n++;
    return n;
}

#ifdef __ARM_ARCH_6M__
uint32_t __aeabi_uidiv(uint32_t n, uint32_t by);
uint64_t __aeabi_lmul(uint64_t a, uint64_t b);

/* Bit by bit. */
uint32_t __aeabi_uidiv(uint32_t n, uint32_t by)
{
    uint32_t quotient = 0, rest = 0;
    for (int i = 31; i >= 0; i--) {
        rest = rest << 1 | (n >> i & 1);
        if (rest >= by) {
            rest -= by;
            quotient |= (uint32_t)1 << i;
        }
    }
    return quotient;
}

/* By halves of sixteen bits, whose products fit into a word. */
uint64_t __aeabi_lmul(uint64_t a, uint64_t b)
{
    const uint32_t al = (uint32_t)a, bl = (uint32_t)b;
    const uint32_t a0 = al & 0xFFFF, a1 = al >> 16, b0 = bl & 0xFFFF, b1 = bl >> 16;
    const uint32_t low = a0 * b0, one = a1 * b0, two = a0 * b1;
    const uint32_t middle = (low >> 16) + (one & 0xFFFF) + (two & 0xFFFF);
    uint32_t high = a1 * b1 + (one >> 16) + (two >> 16) + (middle >> 16);
    high += al * (uint32_t)(b >> 32) + (uint32_t)(a >> 32) * bl;
    return (uint64_t)high << 32 | (middle << 16 | (low & 0xFFFF));
}
#endif
