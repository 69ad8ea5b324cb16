/* The board virt of RISC-V: all in the memory from 80000000h on, the stack above a wall behind the code. */
ENTRY(start)
MEMORY { ram : ORIGIN = 0x80000000, LENGTH = 16M }
SECTIONS {
  .text : { KEEP(*(.start)) *(.text*) *(.rodata*) *(.srodata*) } > ram
  stack_wall = ORIGIN(ram) + 4M;
  stack_top = stack_wall + 4K + 16K;
  .bss stack_top (NOLOAD) : { bss_begin = .; *(.bss*) *(.sbss*) *(COMMON) . = ALIGN(4); bss_end = .; } > ram
  .data : { *(.data*) *(.sdata*) } > ram
  ASSERT(SIZEOF(.data) == 0, "there is no initialised data")
}
