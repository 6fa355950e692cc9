; Eight bytes are sorted in place.

	.module sorted_bytes
	.include "hardware.inc"

	.area _FIXED (ABS)
	.org 0x0100
	nop
	jp start

	.area _RAM
list:	.ds 8

	.area _CODE
start:
	ld	sp, #0xE000
	ld	hl, #list
	ld	c, #8
1$:	ldh	a, (rDIV)
	ld	(hl+), a
	dec	c
	jr	nz, 1$
sort:
	ld	hl, #list
	ld	bc, #0x0700		; seven pairs, nothing changed
2$:	ld	a, (hl+)
	cp	(hl)
	jr	c, 3$
	jr	z, 3$
	ld	d, (hl)
	ld	(hl-), a
	ld	(hl), d
	inc	hl
	inc	c
3$:	dec	b
	jr	nz, 2$
	ld	a, c
	or	a
	jr	nz, sort
4$:	jr	4$
