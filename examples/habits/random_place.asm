; A random number chooses one of four steps, and what is at X and Y of a map is written once the picture may be: the wait
; lies between the address and the store. The line is 0 to 15 by AND, so the page is known line by line.

	.module random_place
	.include "hardware.inc"
rSTAT		= 0xFF41	; the picture's mode in bits 0 and 1

	.area _FIXED (ABS)
	.org 0x0100
	nop
	jp start

	.area _RAM
seed:	.ds 2
x:	.ds 1
y:	.ds 1

	.area _CODE
start:
	ld	sp, #0xE000
	ldh	a, (rDIV)
	ld	(seed), a
	ld	a, #0x5A
	ld	(seed + 1), a
	ld	a, #10
	ld	(x), a
	ld	(y), a
loop:
	call	random
	and	#3
	add	a, a
	ld	e, a
	ld	d, #0
	ld	hl, #steps
	add	hl, de
	ld	a, (x)
	add	a, (hl)
	and	#31
	ld	(x), a
	inc	hl
	ld	a, (y)
	add	a, (hl)
	and	#15
	ld	(y), a
	call	plot
	jr	loop

random:
	ld	hl, #seed
	ld	a, (hl+)
	ld	b, a
	ld	a, (hl)
	srl	a
	rr	b
	jr	nc, 1$
	xor	#0xB4
1$:	ld	(hl-), a
	ld	(hl), b
	xor	b
	ret

plot:
	ld	a, (y)
	swap	a
	ld	l, a
	and	#0x0F
	ld	h, a
	ld	a, l
	and	#0xF0
	ld	l, a
	add	hl, hl
	ld	a, (x)
	or	l
	ld	l, a
	ld	a, h
	add	a, #0x98
	ld	h, a
1$:	ldh	a, (rSTAT)
	bit	1, a
	jr	nz, 1$
	ld	(hl), #1
	ret

steps:	.db 1, 0, -1, 0, 0, 1, 0, -1
