; The address of what is to be called is kept in RAM; it is set to one of a few, by name.

	.module function_pointer
	.include "hardware.inc"
	.area _FIXED (ABS)
	.org 0x0100
	nop
	jp start

	.area _RAM
called:	.ds 2

	.area _CODE
start:
	ld	sp, #0xE000
	ld	hl, #up
	call	set
loop:
	ld	hl, #called
	ld	a, (hl+)
	ld	h, (hl)
	ld	l, a
	call	jump
	ldh	a, (rP1)
	ld	hl, #up
	rrca
	jr	c, 1$
	ld	hl, #down
1$:	call	set
	jr	loop

; What HL points at is called from now on.
set:
	ld	a, l
	ld	(called), a
	ld	a, h
	ld	(called + 1), a
	ret

jump:
	jp	(hl)

up:
	ldh	a, (rSCY)
	inc	a
	ldh	(rSCY), a
	ret

down:
	ldh	a, (rSCY)
	dec	a
	ldh	(rSCY), a
	ret
