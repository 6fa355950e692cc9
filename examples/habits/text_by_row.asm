; Texts are printed at a row and a column, a character in each VBlank; a byte of 10 begins the next row.

	.module text_by_row
	.include "hardware.inc"

	.area _FIXED (ABS)
	.org 0x0040
	reti
	.org 0x0100
	nop
	jp start

	.area _RAM
cursor_x: .ds 1
cursor_y: .ds 1

	.area _CODE
start:
	ld	sp, #0xE000
	xor	a
	ldh	(rIF), a
	inc	a
	ldh	(rIE), a
	xor	a
	ld	(cursor_x), a
	ld	(cursor_y), a
	ei
	ld	de, #hello
	call	print
	ld	de, #world
	call	print
1$:	halt
	nop
	jr	1$

; Prints the text at DE up to 0; 10 begins a new line.
print:
	ld	a, (de)
	inc	de
	or	a
	ret	z
	cp	#10
	jr	z, new_line
	call	put_char
	jr	print

new_line:
	xor	a
	ld	(cursor_x), a
	ld	a, (cursor_y)
	inc	a
	cp	#18
	jr	c, 1$
	xor	a
1$:	ld	(cursor_y), a
	jr	print

; Puts A at the cursor, which goes on.
put_char:
	ld	c, a
	ld	a, (cursor_y)
	cp	#18
	jr	c, 1$
	ld	a, #17
1$:	ld	l, a
	ld	h, #0
	add	hl, hl
	add	hl, hl
	add	hl, hl
	add	hl, hl
	add	hl, hl
	ld	a, (cursor_x)
	and	#31
	add	a, l
	ld	l, a
	ld	a, h
	adc	a, #0x98
	ld	h, a
	halt
	nop
	ld	(hl), c
	ld	a, (cursor_x)
	inc	a
	and	#31
	ld	(cursor_x), a
	ret

hello:	.ascii "HELLO"
	.db 10, 0
world:	.ascii "WORLD"
	.db 0
