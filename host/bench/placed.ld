/* A library as one object, its functions in order as they are aligned, from PLACE bytes on. */
SECTIONS
{
  .text : { . = . + PLACE; *(.text .text.*) }
  .rodata : { *(.rodata .rodata.*) }
}
