// Code: each relocation of an instruction, with and without an addend, beside an alternative entry and
// labels that begin with L and l.
.section __TEXT,__text,regular,pure_instructions
.globl _main
.p2align 2
_main:
  bl _callee
  adrp x0, _table@PAGE+16
  add x0, x0, _table@PAGEOFF+16
  ldr x1, [x0, _table@PAGEOFF+8]
  adrp x2, _outside@GOTPAGE
  ldr x2, [x2, _outside@GOTPAGEOFF]
  adrp x3, _variable@TLVPPAGE
  ldr x3, [x3, _variable@TLVPPAGEOFF]
Lskipped:
  b l_local
.alt_entry _second
_second:
  bl _callee+8
  ret
l_local:
  adrp x4, _second@PAGE
  add x4, x4, _second@PAGEOFF
  b _main
.section __DATA,__data
.p2align 4
_before:
  .quad 0
_table:
  .quad 1, 2, 3
.subsections_via_symbols
