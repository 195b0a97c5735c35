/* QEMU's RISC-V machine `virt`: all in RAM, of which the first half is taken as ROM. */
ENTRY(first)
MEMORY { ROM (rx) : ORIGIN = 0x80000000, LENGTH = 1M  RAM (rw) : ORIGIN = 0x80100000, LENGTH = 1M }
STACK = 64K;
INCLUDE sections.ld
