; A second stack, elsewhere.

	.module sp_set_twice
	.area _FIXED (ABS)
	.org 0x0100
	nop
	jp	start

	.area _CODE
start:
	ld	sp, #0xE000
	call	init
	ld	sp, #0xD000		; another stack
	call	init
1$:	jr	1$
init:	ret
