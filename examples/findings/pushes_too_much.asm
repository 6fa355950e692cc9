; A loop that pushes and never pops.

	.module pushes_too_much
	.area _FIXED (ABS)
	.org 0x0100
	nop
	jp	start

	.area _CODE
start:
	ld	sp, #0xE000
1$:	push	af
	jr	1$
