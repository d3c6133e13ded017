.globl _beta
_beta: ret
.globl _both
_both: ret
