; The keys are read in the handler of VBlank, and A, B, START and SELECT together begin the game anew from there, whatever was
; interrupted.

	.module reset_from_handler
	.include "hardware.inc"
	.area _FIXED (ABS)
	.org 0x0040
	jp	vblank
	.org 0x0100
	nop
	jp start

	.area _RAM
frames:	.ds 1

	.area _CODE
start:
	di
	ld	sp, #0xE000
	xor	a
	ld	(frames), a
	ldh	(rIF), a
	ld	a, #1
	ldh	(rIE), a
	ei
loop:
	halt
	nop
	call	work
	jr	loop

work:
	push	bc
	ld	b, #0
1$:	dec	b
	jr	nz, 1$
	pop	bc
	ret

vblank:
	push	af
	ld	a, (frames)
	inc	a
	ld	(frames), a
	ld	a, #0x10
	ldh	(rP1), a
	ldh	a, (rP1)
	and	#0x0F
	jr	z, start
	pop	af
	reti
