; Frames that are told by directives: a function whose second label cuts it, so that its frame goes past its atom, one of
; no instructions, and one with a personality of its own.
	.section __TEXT,__text,regular,pure_instructions
	.p2align 2
	.globl _whole
_whole:
	.cfi_startproc
	stp x29, x30, [sp, #-16]!
	.cfi_def_cfa_offset 16
	mov x29, sp
	.cfi_def_cfa w29, 16
	.cfi_offset w30, -8
	.cfi_offset w29, -16
	.globl _second
_second:
	bl _may
	ldp x29, x30, [sp], #16
	ret
	.cfi_endproc
	.globl _own
_own:
	.cfi_startproc
	.cfi_personality 155, _handler
	.cfi_lsda 16, Ldata
	ret
	.cfi_endproc
	.globl _handler
_handler:
	ret
	.section __TEXT,__gcc_except_tab
	.byte 1, 2, 3, 4
Ldata:
	.byte 5, 6, 7, 8
	.subsections_via_symbols
