; A text is printed a character in each frame, by the handler of VBlank: the address of the next character and that of its place
; on the screen are both kept in RAM, and move on together. Each pair of values is told apart, so it is accepted.

	.module text_by_frames
	.include "hardware.inc"
	.area _FIXED (ABS)
	.org 0x0040
	jp vblank
	.org 0x0100
	nop
	jp start

	.area _RAM
letter:	.ds 2				; the next character
place:	.ds 2				; where it comes on the screen

	.area _CODE
start:
	ld	sp, #0xE000
	ld	a, #<text
	ld	(letter), a
	ld	a, #>text
	ld	(letter + 1), a
	ld	a, #<(_SCRN0 + 33)
	ld	(place), a
	ld	a, #>(_SCRN0 + 33)
	ld	(place + 1), a
	xor	a, a
	ldh	(rIF), a
	ld	a, #IEF_VBLANK
	ldh	(rIE), a
	ei
loop:
	halt
	nop
	jr	loop

vblank:
	push	af
	push	bc
	push	hl
	ld	hl, #letter
	ld	a, (hl+)
	ld	h, (hl)
	ld	l, a
	ld	a, (hl+)
	or	a
	jr	z, done			; after the last one
	ld	b, a
	ld	a, l
	ld	(letter), a
	ld	a, h
	ld	(letter + 1), a
	ld	hl, #place
	ld	a, (hl+)
	ld	h, (hl)
	ld	l, a
	ld	a, b
	ld	(hl+), a
	ld	a, l
	ld	(place), a
	ld	a, h
	ld	(place + 1), a
done:
	pop	hl
	pop	bc
	pop	af
	reti

text:	.ascii "SOME WORDS"
	.db 0
