; The save is read before cartridge RAM is enabled.

	.module sram_closed
	.area _FIXED (ABS)
	.org 0x0100
	nop
	jp	start

	.area _CODE
start:
	ld	sp, #0xE000
	ld	a, (0xA000)		; still disabled
1$:	jr	1$
