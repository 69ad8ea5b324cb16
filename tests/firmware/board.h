/*
 * The little of a C library that the programs here use, for a processor alone on its board, and what the board adds: how deep each
 * call goes into the stack, and how many instructions it takes. Input and output are the emulator's, by semihosting.
 */
#ifndef BOARD_H
#define BOARD_H

#include <stdbool.h>
#include <stddef.h>
#include <stdint.h>

typedef ptrdiff_t ssize_t;
enum { STDIN_FILENO, STDOUT_FILENO, STDERR_FILENO };
enum { EXIT_SUCCESS, EXIT_FAILURE };
enum { errno = 0, EINTR = 1 }; /* no call is interrupted here */

ssize_t read(int file, void *to, size_t most);
ssize_t write(int file, const void *from, size_t length);
_Noreturn void exit(int status);
void *memcpy(void *to, const void *from, size_t n);
void *memmove(void *to, const void *from, size_t n);
void *memset(void *to, int value, size_t n);
int memcmp(const void *a, const void *b, size_t n);
size_t strlen(const char *text);

/* The program, which is entered when the memory is ready. */
int main(void);

/* ---- how deep each call goes ---- */

enum call {
    CALL_fresh,
    CALL_connect,
    CALL_disconnect,
    CALL_button,
    CALL_request,
    CALL_check,
    CALL_convert,
    CALL_property,
    CALL_region,
    CALL_group,
    CALL_user_region,
    CALL_store_check,
    CALL_save,
    CALL_restore,
    CALL_remove,
    CALL_kept,
    CALL_trace_check,
    CALL_play,
    CALL_play_marked,
    CALL_heard,
    CALL_serve,
    CALL_slot,
    CALL_slot_begin,
    CALL_slot_more,
    CALL_slot_end,
    CALL_slot_newer,
    CALL_slot_target,
    CALL_slot_work,
    CALLS
};

enum { PAINTED = 400 };             /* words below the stack pointer, more than any call takes */
extern uint32_t deepest[CALLS];     /* in bytes */
_Noreturn void too_deep(void);      /* a call went through all that was painted */
void tell_deepest(void);            /* on standard error */
_Noreturn void run_out_of_stack(void); /* to see that the board faults then */

static inline __attribute__((always_inline)) volatile uint32_t *stack_pointer(void)
{
    volatile uint32_t *sp;
#ifdef __arm__
    __asm__ volatile("mov %0, sp" : "=r"(sp));
#else
    __asm__ volatile("mv %0, sp" : "=r"(sp));
#endif
    return sp;
}

/* another for each word, so that no register that a call saves happens to hold it */
static inline __attribute__((always_inline)) uint32_t paint(const volatile uint32_t *word)
{
    return (uint32_t)(uintptr_t)word * 2 ^ 0x5AC35AC3;
}

static inline __attribute__((always_inline)) void paint_below(void)
{
    volatile uint32_t *sp = stack_pointer();
    for (int i = 1; i <= PAINTED; i++)
        sp[-i] = paint(sp - i);
}

static inline __attribute__((always_inline)) void measure_below(enum call call)
{
    volatile uint32_t *sp = stack_pointer();
    uint32_t words = PAINTED;
    while (words > 0 && sp[-(int)words] == paint(sp - words))
        words--;
    if (words == PAINTED)
        too_deep();
    if (deepest[call] < 4 * words)
        deepest[call] = 4 * words;
}

#define MEASURED(name, ...) \
    __extension__({ \
        paint_below(); \
        __auto_type result = kelindap_##name(__VA_ARGS__); \
        measure_below(CALL_##name); \
        result; \
    })
#define kelindap_fresh() MEASURED(fresh)
#define kelindap_connect(...) MEASURED(connect, __VA_ARGS__)
#define kelindap_disconnect(...) MEASURED(disconnect, __VA_ARGS__)
#define kelindap_button(...) MEASURED(button, __VA_ARGS__)
#define kelindap_request(...) MEASURED(request, __VA_ARGS__)
#define kelindap_check(...) MEASURED(check, __VA_ARGS__)
#define kelindap_convert(...) MEASURED(convert, __VA_ARGS__)
#define kelindap_property(...) MEASURED(property, __VA_ARGS__)
#define kelindap_region(...) MEASURED(region, __VA_ARGS__)
#define kelindap_group(...) MEASURED(group, __VA_ARGS__)
#define kelindap_user_region(...) MEASURED(user_region, __VA_ARGS__)
#define kelindap_store_check(...) MEASURED(store_check, __VA_ARGS__)
#define kelindap_save(...) MEASURED(save, __VA_ARGS__)
#define kelindap_restore(...) MEASURED(restore, __VA_ARGS__)
#define kelindap_remove(...) MEASURED(remove, __VA_ARGS__)
#define kelindap_kept(...) MEASURED(kept, __VA_ARGS__)
#define kelindap_trace_check(...) MEASURED(trace_check, __VA_ARGS__)
#define kelindap_play(...) MEASURED(play, __VA_ARGS__)
#define kelindap_play_marked(...) MEASURED(play_marked, __VA_ARGS__)
#define kelindap_heard(...) MEASURED(heard, __VA_ARGS__)
#define kelindap_serve(...) MEASURED(serve, __VA_ARGS__)
#define kelindap_slot(...) MEASURED(slot, __VA_ARGS__)
#define kelindap_slot_begin(...) MEASURED(slot_begin, __VA_ARGS__)
#define kelindap_slot_more(...) MEASURED(slot_more, __VA_ARGS__)
#define kelindap_slot_end(...) MEASURED(slot_end, __VA_ARGS__)
#define kelindap_slot_newer(...) MEASURED(slot_newer, __VA_ARGS__)
#define kelindap_slot_target(...) MEASURED(slot_target, __VA_ARGS__)
#define kelindap_slot_work(...) MEASURED(slot_work, __VA_ARGS__)

/* ---- how many instructions it takes ---- */

/* Instructions so far, if the emulator counts them (-icount shift=0); in steps of 40 on the Arm boards. */
uint64_t instructions(void);

#endif
