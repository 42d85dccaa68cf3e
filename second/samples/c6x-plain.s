; A C6000 program with a plain section: .coeffs is neither text nor data nor
; bss to the assembler and the linker (writable, not "a"llocated), so that the
; COFF writer gives it no type flag. .work is the same without contents.

        .section .vectors,"ax",@progbits
        .balign 32
        mvkl    .S2     _c_int00, B0
        mvkh    .S2     _c_int00, B0
        b       .S2     B0
        nop     5
        nop
        nop
        nop
        nop

        .text
        .balign 32
        .globl  _c_int00
_c_int00:
        mvkl    .S1     table, A3
        mvkh    .S1     table, A3
        ldw     .D1T1   *+A3(0), A5
        mvkl    .S1     coeffs, A4
        mvkh    .S1     coeffs, A4
        ldb     .D1T1   *+A4(6), A6
        nop     4
        add     .L1     A5, A6, A7
        b       .S2     B0
        nop     5

        .data
table:  .word   0x11223344, 0x55667788
        .byte   1, 2, 3

        .section .coeffs,"w",@progbits
coeffs: .byte   0x12, 0x34, 0x56, 0x78, 0x9a, 0xbc, 0xde

        .section .work,"w",@nobits
work:   .skip   24

        .section .overlay,"ax",@progbits
        .balign 32
over:   nop
        b       .S2     B3
        nop     5

        .bss
buf:    .skip   37
