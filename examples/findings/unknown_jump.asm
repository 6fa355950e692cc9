; A jump table without a bound on its index.

	.module unknown_jump
	.area _FIXED (ABS)
	.org 0x0100
	nop
	jp	start

	.area _RAM
state:	.ds 1

	.area _CODE
start:
	ld	sp, #0xE000
loop:	ld	a, (state)		; any value
	add	a, a
	ld	e, a
	ld	d, #0
	ld	hl, #states
	add	hl, de
	ld	a, (hl+)
	ld	h, (hl)
	ld	l, a
	jp	(hl)
states:	.dw	loop, start
