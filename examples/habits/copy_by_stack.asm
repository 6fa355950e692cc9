; A table is copied by POP: with interrupts off SP is kept in RAM, borrowed as a pointer, and loaded again.

	.module copy_by_stack
	.include "hardware.inc"
	.area _FIXED (ABS)
	.org 0x0100
	nop
	jp start

	.area _RAM
kept:	.ds 2

	.area _CODE
start:
	ld	sp, #0xE000
	call	copy
loop:
	jr	loop

copy:
	di
	ld	(kept), sp
	ld	sp, #tiles
	ld	hl, #_VRAM
	ld	b, #8
1$:	pop	de
	ld	a, e
	ld	(hl+), a
	ld	a, d
	ld	(hl+), a
	dec	b
	jr	nz, 1$
	ld	a, (kept)
	ld	l, a
	ld	a, (kept + 1)
	ld	h, a
	ld	sp, hl
	ret

tiles:	.ds 16
