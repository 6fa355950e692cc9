; The timer's handler is long, and lets VBlank come in between: it leaves the timer's own bit out of IE meanwhile.

	.module nested_handlers
	.include "hardware.inc"
	.area _FIXED (ABS)
	.org 0x0040
	jp	vblank
	.org 0x0050
	jp	timer
	.org 0x0100
	nop
	jp start

	.area _RAM
frames:	.ds 1
ticks:	.ds 1

	.area _CODE
start:
	ld	sp, #0xE000
	xor	a
	ld	(frames), a
	ld	(ticks), a
	ld	a, #5			; VBlank and the timer
	ldh	(rIE), a
	ei
loop:
	halt
	nop
	jr	loop

vblank:
	push	af
	ld	a, (frames)
	inc	a
	ld	(frames), a
	pop	af
	reti

timer:
	push	af
	push	bc
	ld	a, #1			; VBlank alone
	ldh	(rIE), a
	ei
	ld	a, (ticks)
	inc	a
	ld	(ticks), a
	ld	b, #20
1$:	dec	b
	jr	nz, 1$
	di
	ld	a, #5
	ldh	(rIE), a
	pop	bc
	pop	af
	reti
