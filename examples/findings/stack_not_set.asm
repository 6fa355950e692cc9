; A call before SP is set.

	.module stack_not_set
	.area _FIXED (ABS)
	.org 0x0100
	nop
	jp	start

	.area _CODE
start:
	call	init			; SP isn't set yet
	ld	sp, #0xE000
1$:	jr	1$
init:	ret
