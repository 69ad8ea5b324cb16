/* The board microbit: 256 KB of code from 0 on, 16 KB of memory from 20000000h on, the stack at its bottom. */
ENTRY(begin)
MEMORY { rom : ORIGIN = 0, LENGTH = 256K  ram : ORIGIN = 0x20000000, LENGTH = 16K }
SECTIONS {
  .text : { KEEP(*(.start)) *(.text*) *(.rodata*) } > rom
  .ARM.exidx : { *(.ARM.exidx*) } > rom
  stack_top = ORIGIN(ram) + 4K;
  .bss stack_top (NOLOAD) : { bss_begin = .; *(.bss*) *(COMMON) . = ALIGN(4); bss_end = .; } > ram
  .data : { *(.data*) } > ram
  ASSERT(SIZEOF(.data) == 0, "there is no initialised data")
}
