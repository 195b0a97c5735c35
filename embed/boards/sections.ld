/* Where things lie, in the ROM and the RAM of a board's own script. The stack comes first in RAM: what overruns it meets the RAM's
 * begin, and no data. */
SECTIONS {
  .text : { KEEP(*(.first)) *(.text .text.*) *(.rodata .rodata.* .srodata .srodata.*) } > ROM
  .ARM.exidx : { *(.ARM.exidx*) } > ROM
  .stack (NOLOAD) : ALIGN(16) { stack_begin = .; . += STACK; stack_end = .; } > RAM
  .data : ALIGN(16) { data_begin = .; *(.data .data.* .sdata .sdata.*) . = ALIGN(16); data_end = .; } > RAM AT> ROM
  data_source = LOADADDR(.data);
  .bss (NOLOAD) : ALIGN(16) { zeros_begin = .; *(.bss .bss.* .sbss .sbss.* COMMON) . = ALIGN(16); zeros_end = .; } > RAM
  /* what stays over a reset */
  .kept (NOLOAD) : ALIGN(16) { *(.kept) } > RAM
  /DISCARD/ : { *(.eh_frame*) *(.comment*) *(.riscv.attributes) *(.ARM.attributes) }
}
