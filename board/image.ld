/* An image for the board `virt`: RAM starts at 0x40000000, and the emulator puts the device tree there. STACK_BYTES and
 * GUARD_BYTES come from the command line. */
ENTRY(_start)
SECTIONS
{
    . = 0x40080000;
    .text : { *(.text.start) *(.text .text.*) }
    .rodata : { *(.rodata .rodata.*) }
    .data : { *(.data .data.*) }
    .bss (NOLOAD) : {
        . = ALIGN(16);
        bss_bottom = .;
        *(.bss .bss.* COMMON)
        . = ALIGN(16);
        guard_bottom = .;
        . += GUARD_BYTES;
        stack_bottom = .;
        . += STACK_BYTES;
        . = ALIGN(16);
        stack_top = .;
    }
    /DISCARD/ : { *(.comment) *(.note*) *(.eh_frame*) }
    ASSERT(. < 0x40800000, "the image reaches into the area")
}
