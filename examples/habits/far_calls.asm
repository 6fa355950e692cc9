; Procedures are called in other banks: the bank that was shown waits on the stack; a handler goes by the variable.
; A handler makes such a call too, and a procedure in a bank goes on in another one.

	.module far_calls
	.include "hardware.inc"
	.area _FIXED (ABS)
	.org 0x0040
	jp vblank
	.org 0x0100
	nop
	jp start

	.area _RAM
bank:	.ds 1				; the bank that is shown
count:	.ds 1

	.area _CODE
start:
	ld	sp, #0xE000
	xor	a
	ld	(count), a
	inc	a
	ld	(bank), a
	ld	(rROMB0), a
	ldh	(rIE), a
	xor	a
	ldh	(rIF), a
	ei
loop:
	halt
	nop
	ld	b, #1
	ld	hl, #first
	call	far_call
	ld	b, #2
	ld	hl, #second
	call	far_call
	jr	loop

; Calls HL in the bank B.
far_call:
	ld	a, (bank)
	push	af
	ld	a, b
	ld	(bank), a
	ld	(rROMB0), a
	call	jump
	pop	af
	ld	(bank), a
	ld	(rROMB0), a
	ret

jump:
	jp	(hl)

vblank:
	push	af
	push	bc
	push	hl
	ld	b, #3
	ld	hl, #third
	call	far_call
	pop	hl
	pop	bc
	pop	af
	reti

	.area _BANK_1
first:
	ld	b, #2
	ld	hl, #second
	jp	far_call

	.area _BANK_2
second:
	ld	hl, #count
	inc	(hl)
	ret

	.area _BANK_3
third:
	ld	a, (count)
	ldh	(rSCX), a
	ret
