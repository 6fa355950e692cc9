; A number of 16 bits is written in five digits, by how often 10,000, 1,000, 100 and 10 are in it.

	.module number_to_digits
	.include "hardware.inc"
rSTAT		= 0xFF41	; the picture's mode in bits 0 and 1

	.area _FIXED (ABS)
	.org 0x0100
	nop
	jp start

	.area _RAM
score:	.ds 2
digits:	.ds 5

	.area _CODE
start:
	ld	sp, #0xE000
	xor	a
	ld	(score), a
	ld	(score + 1), a
loop:
	ld	hl, #score
	inc	(hl)
	jr	nz, 1$
	inc	hl
	inc	(hl)
1$:	call	to_digits
	ld	hl, #0x9800
	ld	de, #digits
	ld	b, #5
2$:	ldh	a, (rSTAT)
	and	#2
	jr	nz, 2$
	ld	a, (de)
	add	a, #0x30
	ld	(hl+), a
	inc	de
	dec	b
	jr	nz, 2$
	jr	loop

to_digits:
	ld	a, (score)
	ld	l, a
	ld	a, (score + 1)
	ld	h, a
	ld	de, #digits
	ld	bc, #-10000
	call	digit
	ld	bc, #-1000
	call	digit
	ld	bc, #-100
	call	digit
	ld	bc, #-10
	call	digit
	ld	a, l
	ld	(de), a
	ret

; How often -BC is in HL, to (DE).
digit:
	ld	a, #-1
1$:	inc	a
	add	hl, bc
	jr	c, 1$
	ld	(de), a
	inc	de
	ld	a, l
	sub	c
	ld	l, a
	ld	a, h
	sbc	a, b
	ld	h, a
	ret
