; WRAM and HRAM are cleared by a routine. A queue of 16 bytes holds kinds, which index a jump table, and a frame counter, which the
; VBlank handler keeps below 60, indexes a table. By the rules of version 4 facts bound all of these bytes, and a fill says what the
; routine has cleared so far.
	.module kinds_in_queue
	.include "hardware.inc"
wQueue	= 0xC200
wHead	= 0xC210
wTail	= 0xC211
wKind	= 0xC220
hFrame	= 0xFF90
	.area	_FIXED (ABS)
	.org	0x0040
	jp	VBlank
	.org	0x0100
	nop
	jp	Start
	.area	_CODE
Start:	di
	ld	sp, #0xE000
	xor	a, a
	ldh	(rLCDC), a
	ld	hl, #0xC000
	ld	bc, #0x1F00
	call	Fill
	ld	hl, #0xFF80
	ld	bc, #0x007E
	call	Fill
	ld	a, #1
	ldh	(rIE), a
	ei
Main:	halt
	nop
	call	Enqueue
	call	Dequeue
	jr	Main
Fill:	xor	a, a
	ld	(hl+), a
	dec	bc
	ld	a, b
	or	a, c
	jr	nz, Fill
	ret
VBlank:	push	af
	ldh	a, (hFrame)
	inc	a
	cp	a, #60
	jr	c, 1$
	xor	a, a
1$:	ldh	(hFrame), a
	pop	af
	reti
Enqueue: ld	a, (wTail)
	ld	c, a
	ld	b, #0
	ld	hl, #wQueue
	add	hl, bc
	ldh	a, (rDIV)
	and	a, #3
	ld	(hl), a
	ld	a, (wTail)
	inc	a
	and	a, #15
	ld	(wTail), a
	ret
Dequeue: ld	a, (wHead)
	ld	c, a
	ld	b, #0
	ld	hl, #wQueue
	add	hl, bc
	ld	a, (hl)
	ld	(wKind), a
	ld	a, (wHead)
	inc	a
	and	a, #15
	ld	(wHead), a
	ld	a, (wKind)
	add	a, a
	ld	c, a
	ld	b, #0
	ld	hl, #Table
	add	hl, bc
	ld	a, (hl+)
	ld	h, (hl)
	ld	l, a
	jp	(hl)
Still:	ret
Scroll:	ldh	a, (hFrame)
	ld	c, a
	ld	b, #0
	ld	hl, #Waves
	add	hl, bc
	ld	a, (hl)
	ldh	(rSCY), a
	ret
Table:	.dw	Still
	.dw	Scroll
	.dw	Still
	.dw	Scroll
Waves:	.ds	60
