// A hart writes a counter again and again, and a kernel reads it: each portion meets a store of the hart and rolls
// back, until it runs under the lock.
//
// Look at: in the order, `r 0 .. 1` after each try, with as many acts for nothing; after `retries` of them comes `l
// 0`, and then `x h0` in place of each step of the hart, until `c 0 .. 1`. Then the hart goes on. In the report,
// `corefill` counts the counter's line once for each of the four tries.
#include "conda.h"

static volatile unsigned counter __attribute__((aligned(64)));

// Whether the counter never fell while it was read.
KERNEL(watch) {
    unsigned last = 0, is_rising = 1;
    for (int at = 0; at < 40; at++) {
        unsigned now = counter;
        is_rising &= now >= last;
        last = now;
    }
    return is_rising;
}

int main(void) {
    launch(0, watch_entries, 0);
    for (unsigned at = 1; at <= 1000; at++)
        counter = at;
    struct answer found = wait(0);
    put_line("kernel done", found.standing == DONE);
    put_line("rising", found.value);
    put_line("counter", counter);
    return 0;
}
