; A text is printed a character at a time; the cursor in it is kept in RAM as a pointer of two bytes, and the text's end is a
; character. The pointer has few values, each of which is told apart, so it is accepted. It costs some nodes for each character:
; a longer text, or several, had better have the character's number in one byte, and a pointer of the text's page and that number.

	.module cursor_in_ram
	.include "hardware.inc"
	.area _FIXED (ABS)
	.org 0x0100
	nop
	jp start

	.area _RAM
cursor:	.ds 2				; the next character

	.area _CODE
start:
	ld	sp, #0xE000
	call	first
loop:
	call	next
	ldh	(rSCX), a
	jr	loop

; The cursor goes to the first character.
first:
	ld	a, #<text
	ld	(cursor), a
	ld	a, #>text
	ld	(cursor + 1), a
	ret

; Gives the next character in A; after the last one the first comes again.
next:
	ld	a, (cursor)
	ld	l, a
	ld	a, (cursor + 1)
	ld	h, a
read:
	ld	a, (hl+)
	or	a
	jr	z, first
	ld	b, a
	ld	a, l
	ld	(cursor), a
	ld	a, h
	ld	(cursor + 1), a
	ld	a, b
	ret

text:	.ascii "SOME WORDS"
	.db 0
