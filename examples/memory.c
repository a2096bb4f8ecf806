// What compilers call by themselves, for copies of structs and loops that clear, where there is no C library.
#ifdef __riscv
#include <stddef.h>

#ifdef __clang__
#define AS_IT_IS
#else
// Else the compiler would see in each loop the function that it is in.
#define AS_IT_IS __attribute__((optimize("no-tree-loop-distribute-patterns")))
#endif

AS_IT_IS void *memcpy(void *to, const void *from, size_t count) {
    unsigned char *put = to;
    const unsigned char *got = from;
    while (count-- > 0)
        *put++ = *got++;
    return to;
}

AS_IT_IS void *memmove(void *to, const void *from, size_t count) {
    unsigned char *put = to;
    const unsigned char *got = from;
    if (put <= got)
        return memcpy(to, from, count);
    while (count-- > 0)
        put[count] = got[count];
    return to;
}

AS_IT_IS void *memset(void *to, int byte, size_t count) {
    unsigned char *put = to;
    while (count-- > 0)
        *put++ = (unsigned char)byte;
    return to;
}

AS_IT_IS int memcmp(const void *one, const void *other, size_t count) {
    const unsigned char *first = one, *second = other;
    for (; count > 0; count--, first++, second++)
        if (*first != *second)
            return *first - *second;
    return 0;
}
#endif
