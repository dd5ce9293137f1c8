/* Where a guest's program lies that is linked by itself: from 0x80000000 on, what is in the section .first first. */
ENTRY(_start)
SECTIONS
{
  . = 0x80000000;
  .all : { *(.first) *(.text .text.*) *(.rodata .rodata.* .srodata .srodata.*) *(.data .data.* .sdata .sdata.*) . = ALIGN(16); }
  .bss : { *(.bss .bss.* .sbss .sbss.* COMMON) }
  /DISCARD/ : { *(.note* .comment .eh_frame*) }
}
