; Eight objects of eight bytes follow one another. The first byte of each is its kind, by which a table says what moves
; it. A kind is compared with the count of kinds before the table is read.

	.module object_kinds
	.include "hardware.inc"

	.area _FIXED (ABS)
	.org 0x0100
	nop
	jp start

	.area _RAM
objects: .ds 64		; 8 of 8 bytes: kind, y, x, ...

	.area _CODE
start:
	ld	sp, #0xE000
	ld	hl, #objects
	ld	bc, #64
1$:	xor	a
	ld	(hl+), a
	dec	bc
	ld	a, b
	or	c
	jr	nz, 1$
	ld	a, #1
	ld	(objects), a
	inc	a
	ld	(objects + 8), a
loop:	call	move_all
	jr	loop

move_all:
	ld	hl, #objects
	ld	b, #8
1$:	push	bc
	push	hl
	ld	a, (hl)
	cp	#4
	jr	nc, 2$
	call	move
2$:	pop	hl
	ld	de, #8
	add	hl, de
	pop	bc
	dec	b
	jr	nz, 1$
	ret

; Moves the object at HL, of kind A.
move:
	ld	d, h
	ld	e, l
	add	a, a
	add	a, #<kinds
	ld	l, a
	ld	a, #0
	adc	a, #>kinds
	ld	h, a
	ld	a, (hl+)
	ld	h, (hl)
	ld	l, a
	jp	(hl)

kinds:	.dw none, walker, flyer, none
none:	ret
walker:	inc	de
	ld	a, (de)
	inc	a
	ld	(de), a
	ret

flyer:	inc	de
	inc	de
	ld	a, (de)
	dec	a
	ld	(de), a
	ret
