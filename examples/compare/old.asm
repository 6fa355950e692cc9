; Two builds of one small game: the handler of the new one calls a routine more. docs/PAGE.md compares them.

	.module old
	.include "hardware.inc"
	.area _FIXED (ABS)
	.org 0x0040
	jp	vblank
	.org 0x0100
	nop
	jp	start

	.area _RAM
frames:	.ds 1
total:	.ds 1

	.area _CODE
start:
	ld	sp, #STACK_TOP
	ld	a, #IEF_VBLANK
	ldh	(rIE), a
	ei
loop:
	halt
	nop
	jr	loop

vblank:
	push	af
	ld	a, (frames)
	inc	a
	ld	(frames), a
	pop	af
	reti
