; A jump table follows a RST that pops its own return address, adds twice the number in A, and jumps through the word
; there. Each call has its own table, so the procedure is followed in its callers.

	.module table_by_rst
	.include "hardware.inc"
	.area _FIXED (ABS)
	.org 0x0008
by_table:
	add	a, a
	pop	hl			; the table
	ld	e, a
	ld	d, #0
	add	hl, de
	ld	a, (hl+)
	ld	h, (hl)
	ld	l, a
	jp	(hl)
	.org 0x0100
	nop
	jp start

	.area _RAM
state:	.ds 1

	.area _CODE
start:
	ld	sp, #0xE000
	xor	a
	ld	(state), a
loop:
	ld	a, (state)
	cp	#3
	jr	nc, start
	call	act
	jr	loop

; One step of the state that is on.
act:
	rst	0x08
	.dw	title, play, over

title:
	ldh	a, (rDIV)
	and	#1
	ret	nz
	ld	a, #1
	ld	(state), a
	ret
play:
	ld	a, #2
	ld	(state), a
	ret
over:
	xor	a
	ld	(state), a
	ret
