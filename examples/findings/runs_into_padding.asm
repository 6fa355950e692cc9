; VBlank is enabled, and 0040 is empty.

	.module runs_into_padding
	.area _FIXED (ABS)
	.org 0x0100
	nop
	jp	start

	.area _CODE
start:
	ld	sp, #0xE000
	ld	a, #0x01
	ldh	(0xFF), a		; VBlank only
	ei
1$:	halt
	nop
	jr	1$
