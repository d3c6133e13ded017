// Data: pointers and differences with addends on both sides of 0, and slots of the global offset table.
.section __TEXT,__text,regular,pure_instructions
.p2align 2
_code:
  nop
_after:
  ret
.section __DATA,__const
.p2align 3
_pointers:
  .quad _code
  .quad _outside
  .quad _outside + 40
  .quad _outside - 40
  .quad _after + 0x100000000
_differences:
  .quad _after - _code
  .quad _outside - _pointers
  .quad _outside - _pointers - 24
  .long _after - _pointers
  .long _outside - _code + 4
  .long _outside - _code - 4
_slots:
  .long _outside@GOT - .
  .quad _code@GOT
.section __DATA,__data
.p2align 2
_last:
  .quad _slots + 4
  .quad Llabel
Llabel:
  .quad _last - _slots
.subsections_via_symbols
