; A box of 6 rows and 16 columns is filled, with a wait for each character; the row and the counters are on the stack meanwhile.

	.module box_by_rows
	.include "hardware.inc"
rSTAT		= 0xFF41	; the picture's mode in bits 0 and 1

	.area _FIXED (ABS)
	.org 0x0100
	nop
	jp start

	.area _CODE
start:
	ld	sp, #0xE000
	ld	hl, #0x9800 + 32*5 + 2
	ld	bc, #0x0610		; 6 rows of 16 columns
	call	draw_box
1$:	jr	1$
draw_box:
1$:	push	bc
	push	hl
2$:	ldh	a, (rSTAT)
	bit	1, a
	jr	nz, 2$
	ld	a, #7
	ld	(hl+), a
	dec	c
	jr	nz, 2$
	pop	hl
	ld	de, #32
	add	hl, de
	pop	bc
	dec	b
	jr	nz, 1$
	ret
