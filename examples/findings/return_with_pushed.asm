; A handler that returns early, with AF still on the stack.

	.module return_with_pushed
	.area _FIXED (ABS)
	.org 0x0040
	jp	vblank
	.org 0x0100
	nop
	jp	start

	.area _RAM
frames:	.ds 1

	.area _CODE
start:
	ld	sp, #0xE000
	ld	a, #0x01
	ldh	(0xFF), a
	ei
1$:	halt
	nop
	jr	1$
vblank:	push	af
	ld	a, (frames)
	inc	a
	ld	(frames), a
	reti				; POP AF is missing
