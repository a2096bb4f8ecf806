// A program that takes memory as it goes, over a C library's malloc, which has it from __heap_start to __heap_end
// (conda.ld): a list of words that a hart makes and a kernel sums up.
//
// Look at: a portion follows the list as far as memory has it. The links lie in the hart's cache, so the first try finds
// none, and each rollback (`r 0 .. 1`, then `f 0`) flushes the lines that were read and lets the next try come one line
// further; after `retries` of them comes the lock, which flushes all.
#include "conda.h"
#include <stdlib.h>

struct link {
    struct link *next;
    unsigned word;
};

KERNEL(sum_of) {
    unsigned sum = 0;
    for (const struct link *at = (const struct link *)argument; at; at = at->next)
        sum += at->word;
    return sum;
}

int main(void) {
    struct link *first = NULL;
    for (unsigned at = 1; at <= 20; at++) {
        struct link *made = malloc(sizeof *made);
        if (!made)
            return 1;
        *made = (struct link){first, at * at};
        first = made;
    }
    launch(0, sum_of_entries, (uintptr_t)first);
    put_line("sum", wait(0).value);
    return 0;
}
