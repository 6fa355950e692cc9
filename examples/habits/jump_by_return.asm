; A jump by PUSH and RET: the address comes from a table, by a kind that is checked before. HL keeps the object that the routine
; works on.

	.module jump_by_return
	.include "hardware.inc"
	.area _FIXED (ABS)
	.org 0x0100
	nop
	jp start

	.area _RAM
object:	.ds 2				; its kind, and what it counts

	.area _CODE
start:
	ld	sp, #0xE000
	xor	a
	ld	(object), a
	ld	(object+1), a
loop:
	ld	hl, #object
	call	act
	jr	loop

; One step of the object at HL.
act:
	ld	a, (hl+)
	cp	#3
	ret	nc
	push	hl
	add	a, a
	ld	e, a
	ld	d, #0
	ld	hl, #kinds
	add	hl, de
	ld	a, (hl+)
	ld	d, (hl)
	ld	e, a
	pop	hl
	push	de			; the routine runs with HL as it was
	ret

kinds:	.dw	wait, count, rest

wait:
	ldh	a, (rDIV)
	and	#1
	ret	z
	ld	a, #1
	ld	(object), a
	ret
count:
	inc	(hl)
	ld	a, (hl)
	cp	#60
	ret	c
	ld	a, #2
	ld	(object), a
	ret
rest:
	xor	a
	ld	(hl), a
	ld	(object), a
	ret
