; SP is kept in RAM before a deep search and loaded again as soon as something is found: all words that were pushed since are
; dropped at once.

	.module stack_pointer_kept
	.include "hardware.inc"
	.area _FIXED (ABS)
	.org 0x0100
	nop
	jp start

	.area _RAM
kept:	.ds 2

	.area _CODE
start:
	ld	sp, #0xE000
loop:
	ld	(kept), sp
	ld	b, #4
1$:	ldh	a, (rDIV)
	push	af
	cp	#9
	jr	z, found
	dec	b
	jr	nz, 1$
found:
	ld	a, (kept)
	ld	l, a
	ld	a, (kept + 1)
	ld	h, a
	ld	sp, hl
	jr	loop
