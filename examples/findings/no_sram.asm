; Cartridge RAM is enabled, and the header has none (MBC5, RAM size 0).

	.module no_sram
	.area _FIXED (ABS)
	.org 0x0100
	nop
	jp	start

	.area _CODE
start:
	ld	sp, #0xE000
	ld	a, #0x0A
	ld	(0x0000), a
	ld	a, (0xA000)		; the header says: no RAM
1$:	jr	1$
