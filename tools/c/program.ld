/* Where a program lies in its memory: boot.s at address 0, the program's code and constants from 0x1000 on, its variables from the next
   page on; page 0 is no part of the program's map. The stack of main comes down from the end of the memory, to a page that is no part of
   it either. These symbols are given on the linker's command line, before this script:

   ram_bytes      where the program's memory ends
   stack_bytes    how many bytes the stack of main has, whole pages
   console        the console's address, which is the end of all RAM; ram_bytes where it isn't given
   main_priority  the priority of main; 1 where it isn't given
   all_rights     where it is given: code can be written, too, and data executed */

SECTIONS
{
  .boot 0 : { KEEP(*(.boot)) }
  .guards : { boot_guards = .; KEEP(*(.nova_guards)) boot_guards_end = .; }
  ASSERT(. <= 0x1000, "the first page is full")

  .text 0x1000 : { KEEP(*(.text.start)) *(.text .text.*) }
  . = ALIGN(16);

  /* Thread-locals as each thread begins with them. Those that begin with zero take no place here. */
  __tls_begin = .;
  .tdata : { *(.tdata .tdata.*) . = ALIGN(4); }
  __tls_data_end = .;
  .tbss : { *(.tbss .tbss.* .tcommon) }
  __tls_bytes = ALIGN(SIZEOF(.tbss) > 0 ? ADDR(.tbss) + SIZEOF(.tbss) - __tls_begin : __tls_data_end - __tls_begin, 16);
  . = __tls_data_end;

  .rodata : ALIGN(16)
  {
    *(.rodata .rodata.* .srodata .srodata.*)
    . = ALIGN(4);
    __preinit_array_start = .;
    KEEP(*(.preinit_array))
    __preinit_array_end = .;
    __init_array_start = .;
    KEEP(*(SORT_BY_INIT_PRIORITY(.init_array.*) SORT_BY_INIT_PRIORITY(.ctors.*)))
    KEEP(*(.init_array .ctors))
    __init_array_end = .;
    __fini_array_start = .;
    KEEP(*(SORT_BY_INIT_PRIORITY(.fini_array.*) SORT_BY_INIT_PRIORITY(.dtors.*)))
    KEEP(*(.fini_array .dtors))
    __fini_array_end = .;
  }

  /* What can't be written ends with a page. */
  . = ALIGN(4096);
  code_end = .;

  .data :
  {
    *(.data .data.*)
    . = ALIGN(8);
    __global_pointer$ = . + 0x800;
    *(.sdata .sdata.*)
    . = ALIGN(16);
  }

  .pages (NOLOAD) : { *(.bss.nova_pages) }
  .bss : { *(.sbss .sbss.* .bss .bss.* COMMON) . = ALIGN(16); }

  /* The stacks of NOVA_STACK, whole pages, each behind a page that is no part of the map. */
  .stacks (NOLOAD) : { *(.nova_stacks) }

  __heap_start = .;
  stack_end = ram_bytes;
  stack_guard = stack_end - stack_bytes - 4096;
  __heap_end = stack_guard;
  PROVIDE(console = ram_bytes);
  main_turns = 10 << 8 | (DEFINED(main_priority) ? main_priority : 1);
  code_rights = DEFINED(all_rights) ? 7 : 5;
  data_rights = DEFINED(all_rights) ? 7 : 3;
  ASSERT(stack_bytes + 0x2000 <= ram_bytes && __heap_start <= __heap_end, "the memory is too small: too little is left for the stack; give build.sh a greater RAM_ORDER, or a lesser --stack")

  /DISCARD/ : { *(.eh_frame .eh_frame.* .note .note.* .comment) }
}
