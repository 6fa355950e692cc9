; A table is read by a pointer that nothing bounds.

	.module pointer_reaches_sram
	.area _FIXED (ABS)
	.org 0x0100
	nop
	jp	start

	.area _CODE
start:
	ld	sp, #0xE000
1$:	ldh	a, (0x04)		; DIV: any value
	ld	h, a
	ld	l, #0
	ld	a, (hl)			; A000 too
	jr	1$
