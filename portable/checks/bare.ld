/* The memory of an mps2-an385 in qemu-system-arm. */
MEMORY { code (rx) : ORIGIN = 0x00000000, LENGTH = 4M  data (rwx) : ORIGIN = 0x20000000, LENGTH = 4M }
ENTRY(reset)
SECTIONS {
  .text : { KEEP(*(.vectors)) *(.text*) *(.rodata*) . = ALIGN(8); } > code
  .ARM.exidx : { *(.ARM.exidx*) } > code
  .data : ALIGN(8) { data_start = .; *(.data*) . = ALIGN(8); data_end = .; } > data AT > code
  data_load = LOADADDR(.data);
  .bss (NOLOAD) : ALIGN(8) { bss_start = .; *(.bss*) *(COMMON) . = ALIGN(8); bss_end = .; } > data
  stack_top = ORIGIN(data) + LENGTH(data);
}
