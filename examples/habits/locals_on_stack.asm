; A procedure makes room on the stack, keeps two variables there, and takes its arguments from above its return address, as
; compilers do.

	.module locals_on_stack
	.include "hardware.inc"
	.area _FIXED (ABS)
	.org 0x0100
	nop
	jp start

	.area _CODE
start:
	ld	sp, #0xE000
loop:
	ld	bc, #0x0503
	push	bc
	call	product
	add	sp, #2
	ld	a, e
	ldh	(rSCX), a
	jr	loop

; The product of the two bytes above the return address, in E.
product:
	add	sp, #-2
	ld	hl, #0			; SP + 0 and 1 are the variables, + 2 and 3 the way back, + 4 and 5 the arguments
	add	hl, sp
	ld	(hl), #0		; the sum
	ld	hl, #4
	add	hl, sp
	ld	a, (hl)
	ld	hl, #1
	add	hl, sp
	ld	(hl), a			; the rounds
1$:	ld	hl, #5
	add	hl, sp
	ld	a, (hl)
	ld	hl, #0
	add	hl, sp
	add	a, (hl)
	ld	(hl), a
	inc	hl
	dec	(hl)
	jr	nz, 1$
	dec	hl
	ld	e, (hl)
	add	sp, #2
	ret
