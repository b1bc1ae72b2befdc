/* A Cortex-M0 with 256 KiB of flash and 64 KiB of RAM.
 * The stack is lowest in RAM: below it there is no memory, so what runs over its end is a fault and overwrites nothing. */
ENTRY(start)

MEMORY
{
    FLASH (rx) : ORIGIN = 0x00000000, LENGTH = 256K
    RAM (rwx) : ORIGIN = 0x20000000, LENGTH = 64K
}

SECTIONS
{
    .text : { KEEP(*(.vectors)) *(.text*) *(.rodata*) } > FLASH
    .ARM.exidx : { *(.ARM.exidx*) } > FLASH
    .stack (NOLOAD) : { stack_end = .; . += stack_bytes; . = ALIGN(8); stack_top = .; } > RAM
    .data : { data_start = .; *(.data*) . = ALIGN(4); data_end = .; } > RAM AT > FLASH
    data_image = LOADADDR(.data);
    .bss (NOLOAD) : { bss_start = .; *(.bss*) *(COMMON) . = ALIGN(4); bss_end = .; } > RAM
}
