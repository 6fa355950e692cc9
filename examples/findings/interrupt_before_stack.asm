; EI before SP is set.

	.module interrupt_before_stack
	.area _FIXED (ABS)
	.org 0x0040
	reti
	.org 0x0100
	nop
	jp	start

	.area _CODE
start:
	ld	a, #0x01
	ldh	(0xFF), a
	ei
	nop				; VBlank can fire here
	di
	ld	sp, #0xE000
1$:	jr	1$
