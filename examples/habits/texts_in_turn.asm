; Texts are printed one after another: a table has their addresses, and the place on the screen is kept in RAM as a pointer of
; two bytes, which has a few values at each call.

	.module texts_in_turn
	.include "hardware.inc"
	.area _FIXED (ABS)
	.org 0x0100
	nop
	jp start

	.area _RAM
at:	.ds 2				; the next place on the screen

	.area _CODE
start:
	ld	sp, #0xE000
loop:
	ld	a, #<_SCRN0
	ld	(at), a
	ld	a, #>_SCRN0
	ld	(at + 1), a
	xor	a
	call	print
	ld	a, #1
	call	print
	ld	a, #2
	call	print
	jr	loop

; Prints the text whose number is A.
print:
	add	a
	ld	e, a
	ld	d, #0
	ld	hl, #texts
	add	hl, de
	ld	a, (hl+)
	ld	d, (hl)
	ld	e, a
	ld	a, (at)
	ld	l, a
	ld	a, (at + 1)
	ld	h, a
1$:	ld	a, (de)
	inc	de
	or	a
	jr	z, 2$
	ld	(hl+), a
	jr	1$
2$:	ld	a, l
	ld	(at), a
	ld	a, h
	ld	(at + 1), a
	ret

texts:	.dw	one, two, three
one:	.asciz "ONE"
two:	.asciz "TWO"
three:	.asciz "THREE"
