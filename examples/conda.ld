/* The program from 0x10000 on, and above it a stack for each of eight harts and four cores, and the heap. Memory begins
   at 0.

   These may be set by the linker's --defsym: stack_bytes, the bytes of each stack, a multiple of 16; memory_end, the
   first address past memory, which is that of the plain configuration where nothing else is said, and the heap's end.

   Past each stack, which grows downwards, lies a line of stack_guard bytes that nobody stores to: where the report has
   something in it that isn't 0, a stack was too small. `gibolufi kernel` looks there when the program has ended.

   What a C library keeps for each thread, as errno, stands from thread_begin on, once for all harts and cores: they
   have it by tp, which start.S sets. Its malloc takes from __heap_start to __heap_end, and is there for one hart. */
ENTRY(_start)

PROVIDE(stack_bytes = 4096);
PROVIDE(memory_end = 0x1000000);
stack_guard = 64;
stack_stride = stack_bytes + stack_guard;

PHDRS
{
    text PT_LOAD FLAGS(5);
    data PT_LOAD FLAGS(6);
    thread PT_TLS;
}

SECTIONS
{
    . = 0x10000;
    .text : { *(.text.start) *(.text .text.*) } :text
    . = ALIGN(0x1000);
    .rodata : { *(.rodata .rodata.* .srodata .srodata.*) } :data
    .data : { *(.data .data.* .sdata .sdata.*) } :data
    . = ALIGN(16);
    thread_begin = .;
    .tdata : { *(.tdata .tdata.*) } :data :thread
    .tbss : { *(.tbss .tbss.*) } :data :thread
    /* The linker gives .tbss no room. */
    . = . + SIZEOF(.tbss);
    .bss : { *(.sbss .sbss.*) *(.bss .bss.* COMMON) } :data
    . = ALIGN(0x1000);
    hart_stacks = .;
    . = . + 8 * stack_stride;
    core_stacks = .;
    . = . + 4 * stack_stride;
    . = ALIGN(64);
    __heap_start = .;
    __heap_end = memory_end;
    ASSERT(stack_bytes % 16 == 0, "stack_bytes is no multiple of 16")
    ASSERT(. <= memory_end, "the program and its stacks reach past memory_end: set mem_bytes, and memory_end with it")
    /DISCARD/ : { *(.eh_frame .comment .note .note.*) }
}
