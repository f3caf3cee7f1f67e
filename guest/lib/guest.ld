/* The memory of a guest with a C library. Code, constants and data are on pages of their own, so that a store to data
   never reaches a page that code or constants are read from. After the data come the threads' blocks of thread-local
   data, and, if the program allocates memory, the heap: the rest of the machine's 1,024 pages. */
ENTRY(_start)

PHDRS
{
    code PT_LOAD FLAGS(5);
    constants PT_LOAD FLAGS(4);
    data PT_LOAD FLAGS(6);
    tls PT_TLS FLAGS(4);
}

it_image = 0x10000;
it_image_end = it_image + 1024 * 4096;

SECTIONS
{
    . = it_image;
    .text : {
        *(.text.unlikely .text.unlikely.* .text.startup .text.startup.* .text .text.*)
    } :code

    . = ALIGN(4096);
    .rodata : {
        *(.rodata .rodata.* .srodata .srodata.* .data.rel.ro .data.rel.ro.*)
        . = ALIGN(4);
        it_constructors = .;
        KEEP(*(SORT_BY_INIT_PRIORITY(.init_array.*)))
        KEEP(*(.init_array))
        it_constructors_end = .;
        it_destructors = .;
        KEEP(*(SORT_BY_INIT_PRIORITY(.fini_array.*)))
        KEEP(*(.fini_array))
        it_destructors_end = .;
    } :constants
    /* The initial values of thread-local data: each thread's block gets a copy. They begin at a page, as the blocks do,
       so that the alignment is the same in both. */
    . = ALIGN(4096);
    it_own_image = .;
    .tdata : { *(.tdata .tdata.*) } :constants :tls
    it_own_image_size = SIZEOF(.tdata);
    .tbss (NOLOAD) : { *(.tbss .tbss.* .tcommon) } :constants :tls
    it_own_size = ALIGN(ADDR(.tbss) + SIZEOF(.tbss) - it_own_image, 4096);

    . = ALIGN(4096);
    .data : {
        *(.data .data.*)
        __global_pointer$ = . + 0x800;
        *(.sdata .sdata.*)
    } :data
    /* the size of the first isn't 0 if the program has handlers that exit calls, that of the second if it allocates
       memory */
    .it_handlers (NOLOAD) : { *(.bss.it_handlers) } :data
    .it_takes_memory (NOLOAD) : { *(.bss.it_takes_memory) } :data
    .bss (NOLOAD) : {
        *(.sbss .sbss.* .bss .bss.* COMMON)
    } :data
    it_has_handlers = SIZEOF(.it_handlers) + (it_destructors_end - it_destructors);

    . = ALIGN(4096);
    .it_own (NOLOAD) : {
        it_own = .;
        . += 32 * it_own_size;
    } :data
    it_heap = .;
    .it_heap (NOLOAD) : {
        . += SIZEOF(.it_takes_memory) && it_heap < it_image_end ? it_image_end - it_heap : 0;
    } :data
    it_heap_end = it_heap + SIZEOF(.it_heap);
    ASSERT(it_heap_end <= it_image_end, "a guest has at most 1,024 pages, and this has more: its arrays are too large")

    /* .debug_aranges has an empty range for each omitted section, and llvm-symbolizer warns about each */
    /DISCARD/ : { *(.comment .note .note.* .eh_frame .eh_frame_hdr .riscv.attributes .debug_aranges) }
}
