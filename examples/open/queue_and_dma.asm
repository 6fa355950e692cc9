; As dma_copy_hl in habits, without the mask on the queue's addresses: the finding is where one is loaded.
	.module queue_and_dma
	.include "hardware.inc"
	.area	_FIXED (ABS)
	.org	0x0040
	jp	VBlank
	.org	0x0100
	nop
	jp	Start
	.area	_HRAM
hOAMDMA:	.ds 10
	.area	_DATA
wOAM:		.ds 160
wQueueLen:	.ds 1
wQueue:		.ds 24*3
	.area	_CODE
Start:	ld	sp, #0xDFFF
	xor	a, a
	ld	(wQueueLen), a
	ld	hl, #hOAMDMA
	ld	de, #DMARoutine
	ld	b, #10
1$:	ld	a, (de)
	ld	(hl+), a
	inc	de
	dec	b
	jr	nz, 1$
	xor	a, a
	ldh	(rIF), a
	inc	a
	ldh	(rIE), a
	ei
Loop:	halt
	nop
	ld	d, #0
2$:	ld	e, #0
3$:	ld	a, #5
	call	QueueTile
	inc	e
	ld	a, e
	cp	#20
	jr	c, 3$
	inc	d
	ld	a, d
	cp	#18
	jr	c, 2$
	jr	Loop
DMARoutine:
	ld	a, #>wOAM
	ldh	(rDMA), a
	ld	a, #0x28
4$:	dec	a
	jr	nz, 4$
	ret
VBlank:	push	af
	push	hl
	push	de
	push	bc
	call	hOAMDMA
	ld	a, (wQueueLen)
	and	a, a
	jr	z, 6$
	ld	b, a
	ld	hl, #wQueue
5$:	ld	a, (hl+)
	ld	e, a
	ld	a, (hl+)
	ld	d, a
	ld	a, (hl+)
	ld	(de), a
	dec	b
	jr	nz, 5$
	xor	a, a
	ld	(wQueueLen), a
6$:	pop	bc
	pop	de
	pop	hl
	pop	af
	reti
QueueTile:
	ld	c, a
7$:	ld	a, (wQueueLen)
	cp	#24
	jr	nc, 7$			; full: wait for VBlank
	ld	b, a
	add	a, a
	add	a, b
	ld	hl, #wQueue
	add	a, l
	ld	l, a
	jr	nc, 8$
	inc	h
8$:	push	hl
	ld	l, d
	ld	h, #0
	add	hl, hl
	add	hl, hl
	add	hl, hl
	add	hl, hl
	add	hl, hl
	ld	a, l
	add	a, e
	ld	l, a
	ld	a, h
	adc	a, #0x98
	ld	b, a
	ld	a, l
	pop	hl
	di
	ld	(hl+), a
	ld	(hl), b
	inc	hl
	ld	(hl), c
	ld	hl, #wQueueLen
	inc	(hl)
	ei
	ret
