OUTPUT_FORMAT("coff2-tic4x")
OUTPUT_ARCH(tic6x)
ENTRY(_c_int00)
SECTIONS
{
  .vectors 0x00000000 : { *(.vectors) }
  .text    0x00000400 : { *(.text) }
  .data    0x80000000 : { *(.data) }
  .coeffs  0x80000100 : { *(.coeffs) }
  .work    0x80000200 : { *(.work) }
  .overlay 0x00008000 : AT (0x80001000) { *(.overlay) }
  .bss     0x80002000 : AT (0x80002000) { *(.bss) }
  /DISCARD/ : { *(.c6xabi.attributes) }
}
