// Strings and literals of 4, 8 and 16 bytes, with and without symbols, and the code and data that refer to them.
.section __TEXT,__text,regular,pure_instructions
.p2align 2
_use:
  adrp x0, L_first@PAGE
  add x0, x0, L_first@PAGEOFF
  adrp x1, _second@PAGE+1
  add x1, x1, _second@PAGEOFF+1
  adrp x2, L_eight@PAGE
  ldr d2, [x2, L_eight@PAGEOFF]
  ret
.section __TEXT,__cstring,cstring_literals
L_first:
  .asciz "first"
  .asciz ""
_second:
  .asciz "second"
  .asciz "third"
.section __TEXT,__literal4,4byte_literals
.p2align 2
  .long 1, 2, 3
.section __TEXT,__literal8,8byte_literals
.p2align 3
  .quad 1
L_eight:
  .quad 2
.section __TEXT,__literal16,16byte_literals
.p2align 4
  .quad 1, 2
_sixteen:
  .quad 3, 4
.section __DATA,__data
.p2align 3
_texts:
  .quad L_first
  .quad _second + 3
  .quad _sixteen
.subsections_via_symbols
