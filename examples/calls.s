; Functions that call one another, in the order in which no call goes to the next function. `calls.sh` assembles,
; links and checks it.
	.text
	.p2align 2
_double:
	add w0, w0, w0
	ret
	.globl _main
	.p2align 2
_main:
	stp x29, x30, [sp, #-16]!
	mov w0, #20
	bl _add_one
	bl _double
	ldp x29, x30, [sp], #16
	b _finish
	.p2align 2
_finish:
	mov w0, #0
	ret
	.p2align 2
_add_one:
Lloh0:
	adrp x1, #4096
Lloh1:
	add x1, x1, #8
	add w0, w0, #1
	ret
	.loh AdrpAdd Lloh0, Lloh1
	.subsections_via_symbols
