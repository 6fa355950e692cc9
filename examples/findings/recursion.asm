; A routine that calls itself.

	.module recursion
	.area _FIXED (ABS)
	.org 0x0100
	nop
	jp	start

	.area _CODE
start:
	ld	sp, #0xE000
1$:	call	fill
	jr	1$
fill:	ldh	a, (0x04)
	and	#1
	ret	z
	call	fill			; the stack grows
	ret
