// A kernel reads a word that the hart stores meanwhile.
#include "conda.h"

static volatile unsigned word __attribute__((aligned(64)));

KERNEL(add_one) {
    return word + 1;
}

int main(void) {
    launch(0, add_one_entries, 0);
    word = 7;
    put_line("sum", wait(0).value);
    return 0;
}
