/* QEMU's mps2-an386: code at 0, memory at 0x20000000. The 16 MB at 0x21000000 hold the medium's data (-DAREA). */
MEMORY
{
    CODE (rx) : ORIGIN = 0, LENGTH = 4M
    RAM (rw) : ORIGIN = 0x20000000, LENGTH = 4M
}
ENTRY(reset)
SECTIONS
{
    .text : {
        KEEP(*(.vectors))
        *(.text*) *(.rodata*)
        KEEP(*(.init*)) KEEP(*(.fini*))
        __preinit_array_start = .; KEEP(*(.preinit_array)) __preinit_array_end = .;
        __init_array_start = .; KEEP(*(.init_array*)) __init_array_end = .;
        __fini_array_start = .; KEEP(*(.fini_array*)) __fini_array_end = .;
    } > CODE
    .ARM.exidx : { __exidx_start = .; *(.ARM.exidx*) __exidx_end = .; } > CODE
    .data : { *(.data*) } > RAM
    .bss : { bss_begin = .; *(.bss*) *(COMMON) . = ALIGN(8); bss_end = .; } > RAM
    end = .;
    _end = .;
    stack_top = ORIGIN(RAM) + LENGTH(RAM);
}
