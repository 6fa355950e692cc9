; A POP in the main program with nothing on the stack.

	.module pops_too_much
	.area _FIXED (ABS)
	.org 0x0100
	nop
	jp	start

	.area _CODE
start:
	ld	sp, #0xE000
	pop	hl			; nothing was pushed
1$:	jr	1$
