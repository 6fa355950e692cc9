; A queue in RAM whose end is kept there as a pointer of two bytes. What is loaded again may be anything, so the store may reach
; the stack. Keep an index in one byte, and make the pointer of a page and that index.

	.module queue_in_ram
	.include "hardware.inc"
	.area _FIXED (ABS)
	.org 0x0100
	nop
	jp start

	.area _RAM
tail:	.ds 2				; where the next entry goes
queue:	.ds 64

	.area _CODE
start:
	ld	sp, #0xE000
	ld	a, #<queue
	ld	(tail), a
	ld	a, #>queue
	ld	(tail + 1), a
loop:
	ldh	a, (rDIV)		; something to put in
	call	put
	jr	loop

; Puts A at the queue's end.
put:
	ld	b, a
	ld	a, (tail)
	ld	l, a
	ld	a, (tail + 1)
	ld	h, a
store:
	ld	(hl), b
	inc	hl
	ld	a, l
	ld	(tail), a
	ld	a, h
	ld	(tail + 1), a
	ret
