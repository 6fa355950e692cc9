; A field of 18 rows of ten bytes: the address is ten times the row and the column. Both are compared where they grow.

	.module playing_field
	.include "hardware.inc"

	.area _FIXED (ABS)
	.org 0x0100
	nop
	jp start

	.area _RAM
field:	.ds 180
px:	.ds 1
py:	.ds 1

	.area _CODE
start:
	ld	sp, #0xE000
	ld	hl, #field
	ld	b, #180
	xor	a
1$:	ld	(hl+), a
	dec	b
	jr	nz, 1$
	ld	a, #4
	ld	(px), a
	xor	a
	ld	(py), a
loop:
	call	fall
	jr	loop

fall:
	call	cell_below
	ld	a, (hl)
	or	a
	jr	nz, land
	ld	a, (py)
	inc	a
	cp	#17
	jr	nc, land
	ld	(py), a
	ret

land:
	call	cell_at
	ld	(hl), #1
	xor	a
	ld	(py), a
	ld	a, (px)
	inc	a
	cp	#10
	jr	c, 1$
	xor	a
1$:	ld	(px), a
	ret

cell_below:
	ld	a, (py)
	inc	a
	jr	address

cell_at:
	ld	a, (py)

; HL = field + A * 10 + px.
address:
	add	a, a
	ld	b, a
	add	a, a
	add	a, a
	add	a, b
	ld	b, a
	ld	a, (px)
	add	a, b
	ld	l, a
	ld	h, #0
	ld	de, #field
	add	hl, de
	ret
