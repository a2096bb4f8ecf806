// A program with a C library, as picolibc gives it: printf over `_write`, exit over `_exit` (libc_port.c), and errno,
// which picolibc keeps for each thread.
//
// Look at: the order is all `s 0`, since there is no kernel; the report's `output` is the length of the text.
#include <errno.h>
#include <stdio.h>
#include <stdlib.h>

int main(void) {
    unsigned long product = 1;
    for (unsigned at = 1; at <= 12; at++)
        product *= at;
    printf("%s: %lu = 0x%08lx\n", "12!", product, product);
    printf("%5d|%-5d|%05d|%c|%%\n", -42, 42, 7, 'x');
    errno = 0;
    strtoul("99999999999999999999", NULL, 10);
    printf("%s\n", errno == ERANGE ? "out of range" : "in range");
    exit(0);
}
