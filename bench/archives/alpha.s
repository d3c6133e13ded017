.globl _alpha
_alpha: ret
.globl _both
_both: ret
