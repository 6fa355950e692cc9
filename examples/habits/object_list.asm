; Sixteen shots of four bytes each are moved by a pointer that goes from one to the next; those that left the screen are
; removed.

	.module object_list
	.include "hardware.inc"
	.area _FIXED (ABS)
	.org 0x0100
	nop
	jp start

	.area _RAM
shots:	.ds 64				; of each: whether it is there, Y, X, and its speed

	.area _CODE
start:
	ld	sp, #0xE000
	ld	hl, #shots
	ld	b, #64
	xor	a
1$:	ld	(hl+), a
	dec	b
	jr	nz, 1$
loop:
	call	move
	jr	loop

move:
	ld	hl, #shots
	ld	c, #16
1$:	push	bc
	push	hl
	ld	a, (hl)
	or	a
	jr	z, 2$
	inc	hl
	ld	a, (hl)			; Y
	inc	hl
	inc	hl
	ld	b, (hl)			; the speed
	add	a, b
	dec	hl
	dec	hl
	ld	(hl), a
	cp	#160
	jr	c, 2$
	dec	hl
	ld	(hl), #0
2$:	pop	hl
	ld	de, #4
	add	hl, de
	pop	bc
	dec	c
	jr	nz, 1$
	ret
