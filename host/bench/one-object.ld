/* A library as one object: every function from the start of a cache line on, whatever lies before it. */
SECTIONS
{
  .text : SUBALIGN(64) { *(.text .text.*) }
  .rodata : SUBALIGN(64) { *(.rodata .rodata.*) }
}
