# Where harts and kernels begin. A hart begins at _start with its number in a0 and the number of harts in a1, which main
# gets; a core begins at one of the entries that KERNEL makes. Each of them gets a stack of its own, stack_stride bytes
# from the next (conda.ld has room for eight harts and four cores), and in tp where a C library keeps what is a thread's.
    .section .text.start, "ax"
    .globl _start
_start:
    la sp, hart_stacks
    addi t0, a0, 1
    lui t1, %hi(stack_stride)
    addi t1, t1, %lo(stack_stride)
    mul t0, t0, t1
    add sp, sp, t0
    la tp, thread_begin
    call main
    li a7, 93
    ecall

# A kernel: its argument in a0, its core's number in a1, its function in t0. The lines of its stack that it uses count
# among those that its portion reads and writes.
    .text
    .globl kernel_start
kernel_start:
    la sp, core_stacks
    addi t1, a1, 1
    lui t2, %hi(stack_stride)
    addi t2, t2, %lo(stack_stride)
    mul t1, t1, t2
    add sp, sp, t1
    la tp, thread_begin
    jalr t0
    li a7, 1004
    ecall
