// Two harts and one word: hart 0 stores it, and hart 1 loads it until it is there.
#include "conda.h"

static volatile unsigned word __attribute__((aligned(64)));

MAIN(hart, harts) {
    if (hart == 0)
        word = 7;
    while (word == 0)
        ;
    return (int)word;
}
