/* tests/shipped on the emulated board mps2-an386 (a Cortex-M4): code and constants from address 0 on, where its vectors are, all else in the memory from 0x21000000 on. */
MEMORY
{
    CODE (rx) : ORIGIN = 0x00000000, LENGTH = 4M
    DATA (rw) : ORIGIN = 0x21000000, LENGTH = 16M
}
stack_top = ORIGIN(DATA) + LENGTH(DATA);
SECTIONS
{
    .text : { KEEP(*(.vectors)) *(.text*) *(.rodata*) } >CODE
    .ARM.exidx : { *(.ARM.exidx*) } >CODE
    .bss : { *(.data*) *(.bss*) *(COMMON) } >DATA
}
