; SP is set to an address that isn't RAM.

	.module no_stack
	.area _FIXED (ABS)
	.org 0x0100
	nop
	jp	start

	.area _CODE
start:
	ld	sp, #0xA000		; the stack would be in video RAM
	call	init
1$:	jr	1$
init:	ret
