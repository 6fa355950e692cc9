; A queue of 16 bytes, by two numbers in RAM that go round by AND.

	.module byte_queue
	.include "hardware.inc"
	.area _FIXED (ABS)
	.org 0x0100
	nop
	jp start

	.area _RAM
first:	.ds 1
last:	.ds 1
queue:	.ds 16

	.area _CODE
start:
	ld	sp, #0xE000
	xor	a
	ld	(first), a
	ld	(last), a
loop:
	ldh	a, (rDIV)
	call	put
	call	take
	ldh	(rSCX), a
	jr	loop

; Puts A at the end.
put:
	ld	b, a
	ld	a, (last)
	ld	c, a
	inc	a
	and	#0x0F
	ld	(last), a
	ld	a, c
	call	place
	ld	(hl), b
	ret

; Takes the first one, in A; 0 where there is none.
take:
	ld	a, (last)
	ld	b, a
	ld	a, (first)
	cp	b
	jr	z, 1$
	ld	c, a
	inc	a
	and	#0x0F
	ld	(first), a
	ld	a, c
	call	place
	ld	a, (hl)
	ret
1$:	xor	a
	ret

; HL is the place with the number A.
place:
	and	#0x0F
	add	a, #<queue
	ld	l, a
	ld	h, #>queue
	ret
