/*
 * A board with nothing on it but the test: the start of the processor, and input and output by semihosting. Below the stack
 * are 4,096 bytes to which the processor's memory protection allows no access, so that a stack that is too deep faults; a
 * fault ends the run.
 */
#include "board.h"

/* ---- the emulator's services ---- */

enum { OPEN = 0x01, WRITE = 0x05, READ = 0x06, EXIT_EXTENDED = 0x20 };

#ifdef __arm__
static uintptr_t ask(uintptr_t service, const void *operands)
{
    register uintptr_t r0 __asm__("r0") = service;
    register const void *r1 __asm__("r1") = operands;
    __asm__ volatile("bkpt 0xab" : "+r"(r0) : "r"(r1) : "memory");
    return r0;
}
#else
static uintptr_t ask(uintptr_t service, const void *operands)
{
    register uintptr_t a0 __asm__("a0") = service;
    register const void *a1 __asm__("a1") = operands;
    __asm__ volatile(".balign 16\n.option push\n.option norvc\nslli zero, zero, 0x1f\nebreak\nsrai zero, zero, 7\n.option pop"
                     : "+r"(a0) : "r"(a1) : "memory");
    return a0;
}
#endif

/* 0 opens for reading, 8 for appending */
static uintptr_t handle(int file)
{
    static const char *const names[3] = { "/dev/stdin", "/dev/stdout", "/dev/stderr" };
    static uintptr_t handles[3];
    if (handles[file] == 0) {
        const uintptr_t operands[3] = { (uintptr_t)names[file], file == STDIN_FILENO ? 0 : 8, strlen(names[file]) };
        handles[file] = ask(OPEN, operands);
    }
    return handles[file];
}

/* The emulator says how many bytes are left over. */
ssize_t read(int file, void *to, size_t most)
{
    const uintptr_t operands[3] = { handle(file), (uintptr_t)to, most };
    uintptr_t left = ask(READ, operands);
    return left > most ? -1 : (ssize_t)(most - left);
}

ssize_t write(int file, const void *from, size_t length)
{
    const uintptr_t operands[3] = { handle(file), (uintptr_t)from, length };
    uintptr_t left = ask(WRITE, operands);
    return left > length ? -1 : (ssize_t)(length - left);
}

_Noreturn void exit(int status)
{
    const uintptr_t operands[2] = { 0x20026, (uintptr_t)status };
    for (;;)
        ask(EXIT_EXTENDED, operands);
}

static void say(const char *text)
{
    write(STDERR_FILENO, text, strlen(text));
}

/* ---- how deep each call went ---- */

uint32_t deepest[CALLS];

_Noreturn void too_deep(void)
{
    say("board: a call used more stack than was painted\n");
    exit(EXIT_FAILURE);
}

static void say_number(uint32_t n)
{
    char digits[11] = { 0 };
    int at = 10;
    do {
        uint32_t tenth = 0;
        while (10 * (tenth + 1) <= n) /* no division on the smallest processor; the numbers are small */
            tenth++;
        digits[--at] = (char)('0' + (n - 10 * tenth));
        n = tenth;
    } while (n > 0);
    say(digits + at);
}

void tell_deepest(void)
{
    static const char *const names[CALLS] = {
        "fresh", "connect",     "disconnect",  "button", "request", "check",  "convert",     "property", "region",
        "group", "user_region", "store_check", "save",   "restore", "remove", "kept", "trace_check", "play",
        "play_marked", "heard", "serve", "slot", "slot_begin", "slot_more", "slot_end", "slot_newer", "slot_target",
        "slot_work",
    };
    say("painted");
    for (int i = 0; i < CALLS; i++) {
        say(" ");
        say(names[i]);
        say("=");
        say_number(deepest[i]);
    }
    say("\n");
}

_Noreturn void run_out_of_stack(void)
{
    for (volatile uint32_t *sp = stack_pointer();;)
        *--sp = 0;
}

/* ---- instructions ---- */

#ifdef SMALL /* this board's timers are others */
uint64_t instructions(void)
{
    return 0;
}

static void start_timer(void)
{
}
#elif defined(__arm__)
/* the board's first timer counts down, 25 times in a microsecond; an instruction counts as a nanosecond */
static volatile uint32_t *const timer = (volatile uint32_t *)0x40000000;

uint64_t instructions(void)
{
    return 40 * (uint64_t)(0xFFFFFFFF - timer[1]);
}

static void start_timer(void)
{
    timer[2] = timer[1] = 0xFFFFFFFF;
    timer[0] = 1;
}
#else
uint64_t instructions(void)
{
    uint32_t high, low, again;
    do
        __asm__ volatile("csrr %0, minstreth\ncsrr %1, minstret\ncsrr %2, minstreth" : "=r"(high), "=r"(low), "=r"(again));
    while (high != again);
    return (uint64_t)high << 32 | low;
}

static void start_timer(void)
{
}
#endif

/* ---- the start ---- */

extern uint32_t bss_begin[], bss_end[], stack_top[], stack_wall[];
_Noreturn void begin(void);
_Noreturn void fault(void);
void start(void);

#ifdef SMALL /* a processor without memory protection */
static void build_wall(void)
{
}
#elif defined(__arm__)
static void build_wall(void)
{
    volatile uint32_t *const protection = (volatile uint32_t *)0xE000ED90;
    protection[2] = 0;                                     /* region 0 */
    protection[3] = (uint32_t)(uintptr_t)stack_wall;
    protection[4] = 1u << 28 | 11 << 1 | 1;                /* 4,096 bytes, no access */
    protection[1] = 4 | 1;                                 /* on, all else as without it */
#ifdef __ARM_ARCH_6M__
    *(volatile uint32_t *)0xE000ED14 |= 8; /* the board's processor takes words at any address; this one must not */
#endif
}
#else
/* an entry that is locked, and so holds for this mode too */
static void build_wall(void)
{
    __asm__ volatile("csrw pmpaddr0, %0\ncsrw pmpcfg0, %1" : : "r"((uintptr_t)stack_wall >> 2 | 0x1FF), "r"(0x98) : "memory");
}
#endif

_Noreturn void begin(void)
{
    for (volatile uint32_t *word = bss_begin; word < bss_end; word++)
        *word = 0;
    build_wall();
    start_timer();
    int status = main();
    tell_deepest();
    exit(status);
}

_Noreturn void fault(void)
{
    say("board: the processor faulted\n");
    exit(3);
}

#ifdef __arm__
__attribute__((naked)) static void trapped(void)
{
    __asm__("ldr r0, =stack_top\nmov sp, r0\nldr r0, =fault\nbx r0\n.ltorg");
}

/* the stack, the start, and every fault of the processor */
__attribute__((section(".start"), used)) static const void *const vectors[16] = {
    stack_top,       (void *)begin,   (void *)trapped, (void *)trapped, (void *)trapped, (void *)trapped,
    (void *)trapped, (void *)trapped, (void *)trapped, (void *)trapped, (void *)trapped, (void *)trapped,
    (void *)trapped, (void *)trapped, (void *)trapped, (void *)trapped,
};
#else
__attribute__((naked, aligned(4), used)) static void trapped(void)
{
    __asm__("la sp, stack_top\nj fault");
}

__attribute__((naked, section(".start"))) void start(void)
{
    __asm__("la sp, stack_top\nla t0, trapped\ncsrw mtvec, t0\nj begin");
}
#endif
