// No .subsections_via_symbols: a section is one atom, but strings and literals are cut.
.section __TEXT,__text,regular,pure_instructions
.p2align 3
.globl _first, _other
_first:
  b _other
  nop
_other:
  bl _first
.section __TEXT,__cstring,cstring_literals
  .asciz "a"
  .asciz "bc"
.section __DATA,__data
.p2align 3
_one:
  .quad _other
_two:
  .quad _other - _one
.zerofill __DATA,__bss,_zero,32,4
