; A jump into code that is there eight times, by as many rounds as are left out: the address is computed, not from a table.

	.module jump_into_code
	.include "hardware.inc"

	.area _FIXED (ABS)
	.org 0x0100
	nop
	jp start

	.area _CODE
start:
	ld	sp, #0xE000
	ld	de, #0x8000
	ldh	a, (rDIV)
	and	#7
	call	fill
1$:	jr	1$

; A bytes of 0 to DE.
fill:
	cpl
	add	a, #9			; 8 - A
	ld	c, a
	add	a, a
	ld	l, a
	ld	h, #0
	ld	bc, #code
	add	hl, bc
	xor	a
	jp	(hl)

code:
	.rept 8
	ld	(de), a
	inc	de
	.endm
	ret
