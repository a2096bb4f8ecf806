// Two counters that have nothing to do with each other lie 32 bytes apart: the hart counts the first, a kernel the
// second.
//
// Look at: with lines of 64 bytes both are in one line, so the hart's stores meet the kernel's portion, and the order
// has `r 0 .. 1` and in the end the lock. In the report, the notes have a `corefill` of that line for each of the four
// tries, a `back` for each flush, and at the commit `drop` and `merge`, since it takes the line away from the hart. With
// `"line_bytes":32` the counters are in two lines: the first try commits, `corefill` is 1, and `back` and `drop` are 0.
#include "conda.h"

static struct {
    volatile unsigned of_hart;
    char between[28];
    volatile unsigned of_kernel;
} counters __attribute__((aligned(64)));

KERNEL(count) {
    for (int at = 0; at < 40; at++)
        counters.of_kernel++;
    return counters.of_kernel;
}

int main(void) {
    launch(0, count_entries, 0);
    for (int at = 0; at < 500; at++)
        counters.of_hart++;
    put_line("kernel", wait(0).value);
    put_line("hart", counters.of_hart);
    return 0;
}
