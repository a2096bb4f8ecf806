// What picolibc asks of the system that it runs on, over the calls of the chip: for programs with a C library.
#ifdef __riscv
#include "conda.h"
#include <stdio.h>
#include <unistd.h>

ssize_t _write(int file, const void *bytes, size_t count) {
    (void)file;
    for (size_t at = 0; at < count; at++)
        put(((const char *)bytes)[at]);
    return (ssize_t)count;
}

__attribute__((noreturn)) void _exit(int status) {
    register int a0 __asm__("a0") = status;
    register unsigned a7 __asm__("a7") = 93;
    __asm__ volatile("ecall" : : "r"(a0), "r"(a7) : "memory");
    __builtin_unreachable();
}

static int put_to_stream(char byte, FILE *stream) {
    (void)stream;
    return _write(1, &byte, 1) == 1 ? (unsigned char)byte : EOF;
}

static FILE output = FDEV_SETUP_STREAM(put_to_stream, NULL, NULL, _FDEV_SETUP_WRITE);
FILE *const stdout = &output;
FILE *const stderr = &output;
#endif
