/* A small Cortex-M3, the LM3S6965: 256 KB of flash, and 64 KB of RAM. */
ENTRY(start)
MEMORY { ROM (rx) : ORIGIN = 0, LENGTH = 256K  RAM (rw) : ORIGIN = 0x20000000, LENGTH = 64K }
STACK = 32K;
INCLUDE sections.ld
