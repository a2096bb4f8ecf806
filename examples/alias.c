// A kernel reads one line, at 0x40000, and the hart stores to four others. No line is shared, but each of the four
// has, in one segment of a signature with `sig_bits` 9, the bit of the line that is read: together they look like it.
//
// Look at: on the plain chip the order has `r 0 .. 1` after each try, and never `f 0`, since no line that was read is
// dirty; in the end comes the lock. In the report, `corefill` counts the line 00040000 once for each of the four tries,
// and no other note has it: nobody else ever had it. With `"sig_bits":10` three of the four bits come apart, the first
// try commits, and `corefill` is 1.
#include "conda.h"

#ifdef __riscv
#define WORD(at) ((volatile unsigned *)(at))
#else
static volatile unsigned memory[0x50000 / 4];
#define WORD(at) (&memory[(at) / 4])
#endif

KERNEL(read_one) {
    unsigned sum = 0;
    for (int at = 0; at < 40; at++)
        sum += *WORD(0x40000) + 1;
    return sum;
}

int main(void) {
    launch(0, read_one_entries, 0);
    for (unsigned at = 1; at <= 300; at++) {
        *WORD(0x49880) = at;
        *WORD(0x4e300) = at;
        *WORD(0x49440) = at;
        *WORD(0x49a40) = at;
    }
    put_line("kernel", wait(0).value);
    put_line("hart", *WORD(0x49a40));
    return 0;
}
