/* A program without operating system or C library around it: one request to the device, one PDU read and written. */
#include "kelindap.h"
#include "kelindap_pdu.h"

/* All that the archives may want from outside. The empty asm keeps the compiler from making calls of these loops. */
void *memcpy(void *to, const void *from, size_t n)
{
    for (size_t i = 0; i < n; i++) {
        ((uint8_t *)to)[i] = ((const uint8_t *)from)[i];
        __asm__ volatile("" ::: "memory");
    }
    return to;
}

void *memset(void *to, int value, size_t n)
{
    for (size_t i = 0; i < n; i++) {
        ((uint8_t *)to)[i] = (uint8_t)value;
        __asm__ volatile("" ::: "memory");
    }
    return to;
}

void *memmove(void *to, const void *from, size_t n)
{
    if ((uintptr_t)to <= (uintptr_t)from)
        return memcpy(to, from, n);
    for (size_t i = n; i > 0; i--) {
        ((uint8_t *)to)[i - 1] = ((const uint8_t *)from)[i - 1];
        __asm__ volatile("" ::: "memory");
    }
    return to;
}

int memcmp(const void *a, const void *b, size_t n)
{
    for (size_t i = 0; i < n; i++) {
        int difference = ((const uint8_t *)a)[i] - ((const uint8_t *)b)[i];
        if (difference != 0)
            return difference;
        __asm__ volatile("" ::: "memory");
    }
    return 0;
}

static uint8_t sheet[69] = {
#include "../../hosts/sample_sheet.inc"
};

/* The height is set at level 1, as in the marked cases. */
static int device_works(void)
{
    static const uint8_t apdu[8] = { 0x03, 0xD7, 0x01, 0x33, 0x10, 0x01, 0x03, 0x84 };
    static const uint8_t expected[8] = { 0x03, 0xD6, 0x01, 0x33, 0x10, 0x01, 0x03, 0x84 };
    static uint8_t answer[16];
    kelindap_sessions sessions = kelindap_fresh();
    kelindap_connect(&sessions, 1);
    sessions.of[1].level = 1;
    kelindap_reply reply = kelindap_request(&sessions, sheet, sizeof sheet, KELINDAP_CONNECTED, 1, 0, apdu, sizeof apdu,
                                            answer, sizeof answer);
    return reply.outcome == KELINDAP_ANSWERED && reply.count == 8 && memcmp(answer, expected, 8) == 0 &&
           sheet[64] == 0x03 && sheet[65] == 0x84;
}

static int tool_works(void)
{
    static const uint8_t apdu[4] = { 0x02, 0x04, 0x01, 0x00 };
    static uint8_t out[16];
    kelindap_pdu pdu = kelindap_read(apdu, sizeof apdu);
    kelindap_written written = kelindap_write(pdu, apdu, 0, out, sizeof out);
    return pdu.outcome == 0 && pdu.kind == KELINDAP_MEMORY_READ && pdu.n == 4 && pdu.address == 0x100 &&
           written.outcome == 0 && written.count == 4 && memcmp(out, apdu, 4) == 0;
}

/* 21.5 degrees, as 2150 hundredths. */
static int points_work(void)
{
    static uint8_t out[2];
    kelindap_point point = { .type = 9, .hundredths = 2150 };
    uint8_t outcome = kelindap_point_write(point, out, sizeof out);
    point = kelindap_point_read(9, out, sizeof out);
    return outcome == 0 && out[0] == 0x0C && out[1] == 0x33 && point.outcome == 0 && point.hundredths == 2150;
}

/* The exit status: 0, 1 if the device's library failed, 2 if the tool's did. */
int run(void);
int run(void)
{
    return !device_works() ? 1 : !tool_works() || !points_work() ? 2 : 0;
}

#if defined(__x86_64__)
__asm__(".globl _start\n_start:\n\txorl %ebp, %ebp\n\tcall run\n\tmovl %eax, %edi\n\tmovl $60, %eax\n\tsyscall\n");
#elif defined(__aarch64__)
__asm__(".globl _start\n_start:\n\tbl run\n\tmov x8, #93\n\tsvc #0\n");
#elif defined(__arm__)
__asm__(".arm\n.globl _start\n_start:\n\tbl run\n\tmov r7, #1\n\tsvc #0\n");
/* a quotient of the compiler's own library calls it if the divisor is 0 */
int raise(int number);
int raise(int number)
{
    (void)number;
    for (;;)
        ;
}
#elif defined(__riscv)
__asm__(".globl _start\n_start:\n.option push\n.option norelax\n\tla gp, __global_pointer$\n.option pop\n\tcall run\n\tli a7, 93\n\tecall\n");
#else
#error "no start for this processor"
#endif
