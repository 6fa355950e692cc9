; A tune is played in the VBlank handler: the number of its note is in one byte, and compared before the notes are read.

	.module tune_player
	.include "hardware.inc"
	.area _FIXED (ABS)
	.org 0x0040
	jp vblank
	.org 0x0100
	nop
	jp start

	.area _RAM
wait:	.ds 1				; frames to the next note
note:	.ds 1				; its number
frames:	.ds 1

	.area _CODE
start:
	ld	sp, #0xE000
	xor	a
	ld	(note), a
	ld	(frames), a
	inc	a
	ld	(wait), a
	ldh	(rIE), a
	xor	a
	ldh	(rIF), a
	ei
loop:
	halt
	nop
	ld	hl, #frames
	ld	a, (hl)
	or	a
	jr	z, loop
	ld	(hl), #0
	jr	loop

vblank:
	push	af
	push	bc
	push	hl
	call	play
	ld	hl, #frames
	inc	(hl)
	pop	hl
	pop	bc
	pop	af
	reti

play:
	ld	hl, #wait
	dec	(hl)
	ret	nz
	ld	a, (note)
	ld	c, a
	inc	a
	cp	#NOTES
	jr	c, 1$
	xor	a
1$:	ld	(note), a
	ld	b, #0
	ld	hl, #tune
	add	hl, bc
	add	hl, bc
	ld	a, (hl+)
	ld	(wait), a
	ld	a, (hl)
	ldh	(rNR13), a
	ld	a, #0x87
	ldh	(rNR14), a
	ret

rNR13	= 0xFF13			; the first channel's frequency
rNR14	= 0xFF14
NOTES	= 6
tune:	.db	10, 0x20, 10, 0x40, 20, 0x60, 10, 0x80, 5, 0xA0, 40, 0
