; A tune by a two-byte pointer in RAM, played in VBlank; the main program fills the tile map and prints a text.
	.module song_pointer
	.include "hardware.inc"
rNR13		= 0xFF13	; the pitch of channel 1, its low byte
	.area	_FIXED (ABS)
	.org	0x0040
	jp	VBlank
	.org	0x0100
	nop
	jp	Start
	.area	_DATA
wPtr:		.ds 2
wWait:		.ds 1
	.area	_CODE
Start:	ld	sp, #0xE000
	ld	hl, #Song
	ld	a, l
	ld	(wPtr), a
	ld	a, h
	ld	(wPtr+1), a
	ld	a, #1
	ld	(wWait), a
	xor	a, a
	ldh	(rIF), a
	ld	a, #1
	ldh	(rIE), a
	ei
Loop:	halt
	nop
	ld	hl, #0x9800
	ld	bc, #0x400
	ld	d, #0
Fill:	ld	a, d
	ld	(hl+), a
	dec	bc
	ld	a, b
	or	a, c
	jr	nz, Fill
	ld	hl, #0x9821
	ld	de, #Hello
Print:	ld	a, (de)
	and	a, a
	jr	z, Loop
	inc	de
	ld	(hl+), a
	jr	Print
VBlank:	push	af
	push	hl
	call	Tick
	pop	hl
	pop	af
	reti
Tick:	ld	hl, #wWait
	dec	(hl)
	ret	nz
	ld	hl, #wPtr
	ld	a, (hl+)
	ld	h, (hl)
	ld	l, a
1$:	ld	a, (hl+)
	cp	#0xFF
	jr	nz, 2$
	ld	hl, #Song
	jr	1$
2$:	ldh	(rNR13), a
	ld	a, (hl+)
	ld	(wWait), a
	ld	a, l
	ld	(wPtr), a
	ld	a, h
	ld	(wPtr+1), a
	ret
Song:	.db	1,20, 3,20, 5,20, 8,40, 0,10, 5,20, 8,40, 0xFF
Hello:	.asciz	"WORLD, HELLO AGAIN"
