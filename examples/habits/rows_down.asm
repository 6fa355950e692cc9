; Falling blocks: the rows above a full row move down. A pointer goes back by a row: SUB on L, and DEC H on carry.
	.module rows_down
	.include "hardware.inc"
BOARD_W	= 12
BOARD_H	= 19
	.area	_FIXED (ABS)
	.org	0x0100
	nop
	jp	Start
	.area	_DATA
wPad:		.ds 160
wBoard:		.ds BOARD_W*BOARD_H
wRow:		.ds 1
	.area	_CODE
Start:	ld	sp, #0xE000
Loop:	ld	hl, #wRow
	inc	(hl)
	call	RemoveRow
	jr	Loop
RemoveRow:
	ld	a, (wRow)
	cp	#BOARD_H-1
	ret	nc
	ld	d, a
	add	a, a
	add	a, d			; * 3
	add	a, a
	add	a, a			; * 12
	add	a, #BOARD_W-1
	ld	l, a
	ld	h, #0
	ld	bc, #wBoard
	add	hl, bc
	ld	b, d
	ld	d, h
	ld	e, l
	ld	a, l
	sub	a, #BOARD_W
	ld	l, a
	jr	nc, 1$
	dec	h
1$:	ld	a, b
	and	a, a
	ret	z
2$:	ld	c, #BOARD_W
3$:	ld	a, (hl-)
	ld	(de), a
	dec	de
	dec	c
	jr	nz, 3$
	dec	b
	jr	nz, 2$
	ret
