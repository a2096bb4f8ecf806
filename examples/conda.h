// The five calls of the chip, as C functions. Besides, `KERNEL(name)` makes a function one that a core can be
// launched on, and `MAIN` begins a main that is told its hart's number and the number of harts.
//
// The same source compiles for the machine that compiles it: there a launch runs the whole kernel at once, and there is
// one hart. So a program whose output doesn't depend on who comes first puts the same text on both.
//
// What harts and kernels may use: the instructions of rv32im, and the word atomics of rv32ima but for
// compare-and-exchange (lr and sc trap as no instruction, cause 2), so __atomic_fetch_add and __atomic_exchange_n on
// words, and no __atomic_compare_exchange; no atomics on bytes and halves, which compilers make of lr and sc or of
// calls; no floats in registers. Besides, a kernel may make the calls `put` and `done` alone: another traps (cause 8). A load or store at an
// address that is no multiple of its size traps (causes 4 and 6).
//
// A kernel's portion reads memory's own bytes: what a hart stored shortly before is stale there, until a rollback
// flushed it.
#ifndef CONDA_H
#define CONDA_H

#include <stdint.h>

// What `launch` answers, and what `wait` and `poll` find.
enum launched { LAUNCHED, IS_BUSY, IS_NO_CORE };
enum standing { IDLE, RUNNING, DONE, TRAPPED, NO_CORE };

// How a core stands, and the value that its kernel returned, or the cause of its trap.
struct answer {
    unsigned standing;
    unsigned value;
};

// A kernel has one word of argument, which may be an address, and is told the number of its core. What it returns is
// the value of its `done`.
typedef unsigned kernel_function(uintptr_t argument, unsigned core);

// For parameters that a kernel or a main may leave unused.
#define MAYBE_UNUSED __attribute__((unused))

#ifdef __riscv

// Each hart runs main, with its number, from 0 on, and the number of harts. What main returns is the exit's value.
#define MAIN(hart, harts) int main(unsigned hart MAYBE_UNUSED, unsigned harts MAYBE_UNUSED)

// A core begins at an address, and with all registers 0 but its argument. So a kernel has an entry for each core, of
// sixteen bytes, which tells the start file what core it is and what function to call.
typedef const char *kernel_entries;

#define KERNEL(name)                                                            \
    unsigned name(uintptr_t argument, unsigned core);                           \
    extern const char name##_entries[];                                         \
    __asm__(".pushsection .text\n"                                              \
            ".balign 16\n"                                                      \
            ".globl " #name "_entries\n" #name "_entries:\n"                    \
            ".set core, 0\n"                                                    \
            ".rept 4\n"                                                         \
            ".balign 16\n"                                                      \
            "    li a1, core\n"                                                 \
            "    la t0, " #name "\n"                                            \
            "    j kernel_start\n"                                              \
            ".set core, core + 1\n"                                             \
            ".endr\n"                                                           \
            ".popsection\n");                                                   \
    __attribute__((used)) unsigned name(uintptr_t argument MAYBE_UNUSED, unsigned core MAYBE_UNUSED)

static inline unsigned launch(unsigned core, kernel_entries kernel, uintptr_t argument) {
    register uintptr_t a0 __asm__("a0") = core;
    register uintptr_t a1 __asm__("a1") = (uintptr_t)kernel + 16 * core;
    register uintptr_t a2 __asm__("a2") = argument;
    register unsigned a7 __asm__("a7") = 1000;
    __asm__ volatile("ecall" : "+r"(a0) : "r"(a1), "r"(a2), "r"(a7) : "memory");
    return a0;
}

static inline struct answer ask(unsigned core, unsigned call) {
    register unsigned a0 __asm__("a0") = core;
    register unsigned a1 __asm__("a1");
    register unsigned a7 __asm__("a7") = call;
    __asm__ volatile("ecall" : "+r"(a0), "=r"(a1) : "r"(a7) : "memory");
    return (struct answer){a0, a1};
}

// Waits until the core's kernel has ended, and makes the core idle.
static inline struct answer wait(unsigned core) {
    return ask(core, 1001);
}

static inline struct answer poll(unsigned core) {
    return ask(core, 1002);
}

// Puts a byte into the output; in a kernel it becomes output when its portion commits.
static inline void put(char byte) {
    register unsigned a0 __asm__("a0") = (unsigned char)byte;
    register unsigned a7 __asm__("a7") = 1003;
    __asm__ volatile("ecall" : : "r"(a0), "r"(a7) : "memory");
}

// Ends a kernel; returning from it does the same.
__attribute__((noreturn)) static inline void done(unsigned value) {
    register unsigned a0 __asm__("a0") = value;
    register unsigned a7 __asm__("a7") = 1004;
    __asm__ volatile("ecall" : : "r"(a0), "r"(a7) : "memory");
    __builtin_unreachable();
}

#else

#include <setjmp.h>
#include <stdio.h>

#define MAIN(hart, harts)                                                       \
    static int program(unsigned hart, unsigned harts);                          \
    int main(void) {                                                            \
        return program(0, 1);                                                   \
    }                                                                           \
    static int program(unsigned hart MAYBE_UNUSED, unsigned harts MAYBE_UNUSED)

typedef kernel_function *kernel_entries;

#define KERNEL(name)                                                            \
    unsigned name(uintptr_t argument, unsigned core);                           \
    static kernel_function *const name##_entries = name;                        \
    unsigned name(uintptr_t argument MAYBE_UNUSED, unsigned core MAYBE_UNUSED)

static struct answer cores[4];
static unsigned running;
static jmp_buf launching;

static inline unsigned launch(unsigned core, kernel_entries kernel, uintptr_t argument) {
    if (core >= 4)
        return IS_NO_CORE;
    if (cores[core].standing != IDLE)
        return IS_BUSY;
    running = core;
    cores[core].standing = DONE;
    if (setjmp(launching) == 0)
        cores[running].value = kernel(argument, running);
    return LAUNCHED;
}

__attribute__((noreturn)) static inline void done(unsigned value) {
    cores[running].value = value;
    longjmp(launching, 1);
}

static inline struct answer poll(unsigned core) {
    return core < 4 ? cores[core] : (struct answer){NO_CORE, 0};
}

static inline struct answer wait(unsigned core) {
    struct answer found = poll(core);
    if (core < 4)
        cores[core] = (struct answer){IDLE, 0};
    return found;
}

static inline void put(char byte) {
    putchar((unsigned char)byte);
}

#endif

// Text, of puts.

static inline void put_text(const char *text) {
    while (*text)
        put(*text++);
}

static inline void put_number(unsigned number) {
    char digits[10];
    int count = 0;
    do
        digits[count++] = (char)('0' + number % 10);
    while (number /= 10);
    while (count > 0)
        put(digits[--count]);
}

static inline void put_line(const char *name, unsigned number) {
    put_text(name);
    put(' ');
    put_number(number);
    put('\n');
}

#endif
