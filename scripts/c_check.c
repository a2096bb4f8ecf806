// A program for the simulator and for the machine that compiles it: both put the same text.
#ifdef __riscv

// The entry: main's answer becomes the exit status.
__asm__(".section .text.start\n"
        ".globl _start\n"
        "_start:\n"
        "    la sp, stack_top\n"
        "    call main\n"
        "    li a7, 93\n"
        "    ecall\n");

static void put(char byte) {
    register int what __asm__("a0") = (unsigned char)byte;
    register int call __asm__("a7") = 1003;
    __asm__ volatile("ecall" : "+r"(what) : "r"(call) : "memory");
}

#else
#include <stdio.h>

static void put(char byte) {
    putchar(byte);
}

#endif

#define COUNT 200

typedef unsigned word;

static const char digits[] = "0123456789abcdef";     // .rodata
static word seed = 2463534242;                       // .data
static int numbers[COUNT];                           // .bss
static signed char bytes[COUNT];
static unsigned short halves[COUNT];

static void put_text(const char *text) {
    while (*text)
        put(*text++);
}

static void put_number(word number, word base) {
    if (number >= base)
        put_number(number / base, base);
    put(digits[number % base]);
}

static void put_line(const char *name, word number) {
    put_text(name);
    put(' ');
    put_number(number, 10);
    put(' ');
    put_number(number, 16);
    put('\n');
}

static word next_random(void) {
    seed ^= seed << 13;
    seed ^= seed >> 17;
    seed ^= seed << 5;
    return seed;
}

static int by_value(int a, int b) {
    return a < b;
}

static int by_low_byte(int a, int b) {
    return (word)a % 256 < (word)b % 256;
}

// A heap in `numbers[..end]`, but for the place `at`.
static void sift(int at, int end, int (*is_less)(int, int)) {
    for (int child = 2 * at + 1; child < end; child = 2 * at + 1) {
        if (child + 1 < end && is_less(numbers[child], numbers[child + 1]))
            child++;
        if (!is_less(numbers[at], numbers[child]))
            return;
        int kept = numbers[at];
        numbers[at] = numbers[child];
        numbers[child] = kept;
        at = child;
    }
}

static void sort(int (*is_less)(int, int)) {
    for (int at = COUNT / 2; at-- > 0;)
        sift(at, COUNT, is_less);
    for (int end = COUNT; end-- > 1;) {
        int most = numbers[0];
        numbers[0] = numbers[end];
        numbers[end] = most;
        sift(0, end, is_less);
    }
}

static word checksum(void) {
    word low = 1, high = 0;
    for (int at = 0; at < COUNT; at++) {
        low = (low + (word)numbers[at]) % 65521;
        high = (high + low) % 65521;
    }
    return high << 16 | low;
}

static word ackermann(word m, word n) {
    if (m == 0)
        return n + 1;
    return ackermann(m - 1, n == 0 ? 1 : ackermann(m, n - 1));
}

// Products and quotients, signed and unsigned, shifts and comparisons.
static word arithmetic(void) {
    word sum = 0;
    for (int at = 1; at < COUNT; at++) {
        int a = numbers[at - 1], b = numbers[at] | 1;
        word c = (word)a, d = (word)numbers[at] | 2;
        sum += (word)((long long)a * b >> 32);
        sum ^= (word)((unsigned long long)c * d >> 32);
        sum += (word)((long long)b * d >> 32);
        sum += (word)(a / b) ^ (word)(a % b) ^ c / d ^ c % d;
        sum = (sum << (at & 31) | sum >> (-at & 31)) + (word)(a >> (at & 31)) + (a < b) + (c < d);
    }
    return sum;
}

static word narrow(void) {
    word sum = 0;
    for (int at = 0; at < COUNT; at++) {
        bytes[at] = (signed char)numbers[at];
        halves[at] = (unsigned short)numbers[COUNT - 1 - at];
    }
    for (int at = 0; at < COUNT; at++)
        sum = sum * 16777619 + (word)(bytes[at] + (short)halves[at]) + (unsigned char)bytes[at] + halves[at];
    return sum;
}

// Where the compiler may use atomics, they give the same.
static word atomic(void) {
    static word place = 0x1234;
    word sum = 0;
    for (int at = 0; at < COUNT; at++) {
        word operand = (word)numbers[at];
#if defined __riscv && !defined __riscv_atomic
        sum += place, place += operand;
        sum ^= place, place ^= operand >> 3;
        sum += place, place |= operand & 0xff0;
        sum ^= place, place &= ~(operand << 9);
        word was = place;
        place = sum ^ operand;
        sum += was;
#else
        sum += __atomic_fetch_add(&place, operand, __ATOMIC_RELAXED);
        sum ^= __atomic_fetch_xor(&place, operand >> 3, __ATOMIC_ACQUIRE);
        sum += __atomic_fetch_or(&place, operand & 0xff0, __ATOMIC_RELEASE);
        sum ^= __atomic_fetch_and(&place, ~(operand << 9), __ATOMIC_ACQ_REL);
        sum += __atomic_exchange_n(&place, sum ^ operand, __ATOMIC_SEQ_CST);
#endif
    }
    return sum;
}

int main(void) {
    for (int at = 0; at < COUNT; at++)
        numbers[at] = (int)next_random();
    put_line("before", checksum());
    sort(by_value);
    put_line("least", (word)numbers[0]);
    put_line("sorted", checksum());
    put_line("arithmetic", arithmetic());
    sort(by_low_byte);
    put_line("by_low_byte", checksum());
    put_line("narrow", narrow());
    put_line("atomic", atomic());
    put_line("ackermann", ackermann(2, 9));
    return 0;
}
