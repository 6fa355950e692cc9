; Too many pushes for a stack in HRAM.

	.module stack_too_deep
	.area _FIXED (ABS)
	.org 0x0100
	nop
	jp	start

	.area _CODE
start:
	ld	sp, #0xFF8A		; ten bytes below it
	call	deep
1$:	jr	1$
deep:	push	af
	push	bc
	push	de
	push	hl
	push	af
	pop	af
	pop	hl
	pop	de
	pop	bc
	pop	af
	ret
