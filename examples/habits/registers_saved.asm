; A handler saves all registers on the stack and works with them, and so does each procedure with those that it uses.

	.module registers_saved
	.include "hardware.inc"
	.area _FIXED (ABS)
	.org 0x0040
	jp	vblank
	.org 0x0100
	nop
	jp start

	.area _RAM
seed:	.ds 1
points:	.ds 16

	.area _CODE
start:
	ld	sp, #0xE000
	ld	hl, #seed
	ld	(hl), #1
	ld	a, #1
	ldh	(rIE), a
	ei
	ld	b, #0
loop:
	ld	a, b
	and	#0x0F
	ld	b, a
	call	put
	inc	b
	jr	loop

; Puts a random number at place B.
put:
	push	af
	push	de
	push	hl
	ld	d, #0
	ld	e, b
	ld	hl, #points
	add	hl, de
	call	random
	ld	(hl), a
	pop	hl
	pop	de
	pop	af
	ret

; A random number in A.
random:
	push	bc
	ld	a, (seed)
	ld	b, a
	add	a, a
	add	a, a
	add	a, b
	inc	a
	ld	(seed), a
	pop	bc
	ret

vblank:
	push	af
	push	bc
	push	de
	push	hl
	ld	hl, #points
	ld	c, #16
1$:	ld	a, (hl+)
	ldh	(rSCX), a
	dec	c
	jr	nz, 1$
	call	random
	pop	hl
	pop	de
	pop	bc
	pop	af
	reti
