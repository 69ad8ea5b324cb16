/* The boards mps2-an385 and mps2-an386: code from 0 on, memory from 20000000h on, the stack above a wall at its bottom. */
ENTRY(begin)
MEMORY { rom : ORIGIN = 0, LENGTH = 4M  ram : ORIGIN = 0x20000000, LENGTH = 4M }
SECTIONS {
  .text : { KEEP(*(.start)) *(.text*) *(.rodata*) } > rom
  .ARM.exidx : { *(.ARM.exidx*) } > rom
  stack_wall = ORIGIN(ram);
  stack_top = stack_wall + 4K + 16K;
  .bss stack_top (NOLOAD) : { bss_begin = .; *(.bss*) *(COMMON) . = ALIGN(4); bss_end = .; } > ram
  .data : { *(.data*) } > ram
  ASSERT(SIZEOF(.data) == 0, "there is no initialised data")
}
