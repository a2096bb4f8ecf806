// A sum over 512 words, by two cores at once: the hart fills the words, launches a core on each half and adds what
// the two return.
//
// Look at: in the order, the first portion of each core ends in `r 0 .. 1`, since the words lie in the hart's cache
// when it opens (they are dirty), and memory still has zeros. After the flushes (`f 0`, one a line) the second try
// reads the words and commits. In the report, `back` counts the flushed lines, and `corefill` twice the lines that
// were read.
#include "conda.h"

#define COUNT 512

static unsigned words[COUNT] __attribute__((aligned(64)));

KERNEL(sum_half) {
    const unsigned *from = (const unsigned *)argument;
    unsigned sum = 0;
    for (int at = 0; at < COUNT / 2; at++)
        sum += from[at];
    return sum;
}

int main(void) {
    for (unsigned at = 0; at < COUNT; at++)
        words[at] = at * at;
    launch(0, sum_half_entries, (uintptr_t)words);
    launch(1, sum_half_entries, (uintptr_t)(words + COUNT / 2));
    unsigned low = wait(0).value, high = wait(1).value;
    put_line("low", low);
    put_line("high", high);
    put_line("sum", low + high);
    return 0;
}
