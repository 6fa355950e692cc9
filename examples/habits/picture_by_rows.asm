; WRAM is filled by two counters in a loop that is entered at the first of them, and a picture is copied row by row, with no counter
; of its pointers. The rounds of the outer counters are told apart, though neither loop has shown its end when its store fails.
	.module picture_by_rows
	.include "hardware.inc"
	.area	_FIXED (ABS)
	.org	0x0100
	nop
	jp	Start
	.area	_CODE
Start:	ld	sp, #0xE000
	xor	a, a
	ldh	(rLCDC), a
	ld	hl, #0xC000
	ld	bc, #0x1000
	inc	b
	inc	c
	jr	2$
1$:	ld	(hl+), a
2$:	dec	c
	jr	nz, 1$
	dec	b
	jr	nz, 1$
	ld	hl, #Picture
	ld	de, #_SCRN0
	ld	b, #18
3$:	ld	c, #20
4$:	ld	a, (hl+)
	ld	(de), a
	inc	de
	dec	c
	jr	nz, 4$
	ld	a, e
	add	a, #12
	ld	e, a
	jr	nc, 5$
	inc	d
5$:	dec	b
	jr	nz, 3$
6$:	jr	6$

Picture:	.ds	18 * 20
