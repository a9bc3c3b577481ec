/* The plain program, for qemu-riscv64 and to compare with: the object as the linker makes it, without hardening. Code and data
   stand where they stand in a hardened image. There is no global pointer, so the linker shortens calls alone. */
ENTRY(_start)
PHDRS { data PT_LOAD FLAGS(6); code PT_LOAD FLAGS(5); }
SECTIONS
{
    . = 0x10000;
    .data : { *(.rodata .rodata.* .srodata .srodata.*) *(.data .data.* .sdata .sdata.*) } :data
    .bss : { *(.bss .bss.* .sbss .sbss.* COMMON) } :data
    . = 0x40000040;
    .text : { *(.text .text.*) } :code
    /DISCARD/ : { *(.comment .note.* .eh_frame .riscv.attributes) }
}
