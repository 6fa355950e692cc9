; The address where all states go on is pushed, and then each is jumped to and returns there: a call by PUSH and JP.

	.module address_pushed
	.include "hardware.inc"
	.area _FIXED (ABS)
	.org 0x0100
	nop
	jp start

	.area _CODE
start:
	ld	sp, #0xE000
loop:
	ld	hl, #behind
	push	hl
	ldh	a, (rDIV)
	and	#3
	add	a, a
	ld	e, a
	ld	d, #0
	ld	hl, #states
	add	hl, de
	ld	a, (hl+)
	ld	h, (hl)
	ld	l, a
	jp	(hl)
behind:
	ldh	(rSCX), a
	jr	loop

states:	.dw	zero, one, two, one

zero:
	xor	a
	ret
one:
	ld	a, #1
	ret
two:
	push	bc
	ld	b, #2
	ld	a, b
	pop	bc
	ret
