; A grid of 16 by 16 goes round at its sides by the low byte alone; of each place the neighbours are counted.

	.module neighbours
	.include "hardware.inc"

	.area _FIXED (ABS)
	.org 0x0100
	nop
	jp start

	.area _RAM

	.area _PAGES_RAM
old:	.ds 256
new:	.ds 256

	.area _CODE
start:
	ld	sp, #0xE000
	ld	hl, #old
1$:	ldh	a, (rDIV)
	and	#1
	ld	(hl+), a
	ld	a, h
	cp	#>new
	jr	nz, 1$
loop:
	call	step
	call	copy
	jr	loop

step:
	ld	l, #0
each:	ld	h, #>old
	push	hl
	ld	c, #0
	ld	a, l
	sub	#17
	ld	l, a
	call	count_three
	ld	a, l
	add	a, #13
	ld	l, a
	call	count_three
	ld	a, l
	add	a, #13
	ld	l, a
	call	count_three
	pop	hl
	ld	a, c
	cp	#3
	jr	z, alive
	cp	#4
	jr	z, same
	ld	b, #0
	jr	put

alive:	ld	b, #1
	jr	put

same:	ld	b, (hl)
put:	ld	h, #>new
	ld	(hl), b
	inc	l
	jr	nz, each
	ret

count_three:
	ld	b, #3
1$:	ld	a, (hl)
	add	a, c
	ld	c, a
	inc	l
	dec	b
	jr	nz, 1$
	inc	l
	ret

copy:
	ld	hl, #new
	ld	de, #old
	ld	c, #0
1$:	ld	a, (hl+)
	ld	(de), a
	inc	de
	dec	c
	jr	nz, 1$
	ret
