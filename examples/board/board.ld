/* The memory of Arm's MPS2 board AN386 (a Cortex-M4), as qemu-system-arm -M mps2-an386 has it. startup.c uses the names below. */
MEMORY {
    CODE (rx)  : ORIGIN = 0x00000000, LENGTH = 4M
    FLASH (rw) : ORIGIN = 0x20000000, LENGTH = 4M  /* memory that stands for the flash of the records: see flash.c */
    RAM (rw)   : ORIGIN = 0x21000000, LENGTH = 16M
}

ENTRY(reset)

SECTIONS {
    .text : {
        KEEP(*(.vectors))
        *(.text*) *(.rodata*)
        KEEP(*(.init)) KEEP(*(.fini))
        __preinit_array_start = .; KEEP(*(.preinit_array*)) __preinit_array_end = .;
        __init_array_start = .; KEEP(*(.init_array*)) __init_array_end = .;
        __fini_array_start = .; KEEP(*(.fini_array*)) __fini_array_end = .;
    } > CODE
    .ARM.exidx : { *(.ARM.exidx*) *(.ARM.extab*) } > CODE
    .data : {
        . = ALIGN(8); data_start = .;
        *(.data*)
        . = ALIGN(8); data_end = .;
    } > RAM AT > CODE
    data_load = LOADADDR(.data);
    .bss (NOLOAD) : {
        . = ALIGN(8); bss_start = .;
        *(.bss*) *(COMMON)
        . = ALIGN(8); bss_end = .;
        end = .; /* from here on newlib takes what printf asks for; the library asks for nothing */
    } > RAM AT > RAM
    .flash (NOLOAD) : { *(.flash*) } > FLASH
    stack_top = ORIGIN(RAM) + LENGTH(RAM);
}
