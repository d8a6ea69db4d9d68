/* The memory of a micro:bit: 256 KiB of flash and 16 KiB of memory. A net has no object with a first value, so nothing is copied at the start. */
MEMORY
{
    flash : ORIGIN = 0, LENGTH = 256K
    memory : ORIGIN = 0x20000000, LENGTH = 16K
}

SECTIONS
{
    .text : { KEEP(*(.vectors)) *(.text*) *(.rodata*) } > flash
    .bss : { bss_begins = .; *(.bss*) *(COMMON) . = ALIGN(4); bss_ends = .; } > memory
    stack_begins = ORIGIN(memory) + LENGTH(memory);
}
