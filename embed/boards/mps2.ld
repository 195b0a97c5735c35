/* A Cortex-M3 on Arm's MPS2 board: 4 MB that begin as ROM, and 4 MB of RAM. */
ENTRY(start)
MEMORY { ROM (rx) : ORIGIN = 0, LENGTH = 4M  RAM (rw) : ORIGIN = 0x20000000, LENGTH = 4M }
STACK = 64K;
INCLUDE sections.ld
