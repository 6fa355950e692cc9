; A store to echo RAM.

	.module store_outside_ram
	.area _FIXED (ABS)
	.org 0x0100
	nop
	jp	start

	.area _CODE
start:
	ld	sp, #0xE000
	ld	a, #1
	ld	(0xE000), a		; echo of C000
1$:	jr	1$
