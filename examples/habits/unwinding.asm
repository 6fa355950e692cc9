; Out of nested calls: where nothing is left to do, the inner procedure drops its own return address and its caller's, and
; returns to whoever called that.

	.module unwinding
	.include "hardware.inc"
	.area _FIXED (ABS)
	.org 0x0100
	nop
	jp start

	.area _RAM
left:	.ds 1

	.area _CODE
start:
	ld	sp, #0xE000
	ld	a, #8
	ld	(left), a
loop:
	call	outer
	ldh	(rSCX), a
	jr	loop

outer:
	push	bc
	ld	b, #3
1$:	call	inner
	dec	b
	jr	nz, 1$
	pop	bc
	ret

; Takes one; where none is left, OUTER is left too, with what it has pushed.
inner:
	ld	a, (left)
	or	a
	jr	z, none
	dec	a
	ld	(left), a
	ret
none:
	pop	hl			; the way back into OUTER
	pop	bc			; what that has pushed
	ret
