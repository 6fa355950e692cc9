; An argument past two return addresses: `dispatch` calls what reads it, as a trampoline for banked calls does. It is called from several
; places, and each time its own return address lies between.
	.module argument_past_return
	.include "hardware.inc"
	.area	_FIXED (ABS)
	.org	0x0100
	nop
	jp	start

	.area	_DATA
counts:	.ds	16

	.area	_CODE
start:
	ld	sp, #0xE000
loop:
	ldh	a, (rDIV)
	call	count_once
	ldh	a, (rDIV)
	call	count_twice
	jr	loop

count_once:
	push	af
	inc	sp
	call	dispatch
	inc	sp
	ret

count_twice:
	push	af
	inc	sp
	call	dispatch
	call	dispatch
	inc	sp
	ret

dispatch:
	call	count
	ret

count:
	ldhl	sp, #4			; past the address behind `call count`, and that behind `call dispatch`
	ld	a, (hl)
	and	a, #15
	ld	c, a
	ld	b, #0
	ld	hl, #counts
	add	hl, bc
	inc	(hl)
	ret
