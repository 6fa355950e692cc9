; The routine in HRAM is called before it is copied there.

	.module unknown_code_in_ram
	.area _FIXED (ABS)
	.org 0x0100
	nop
	jp	start

	.area _CODE
start:
	ld	sp, #0xE000
	call	0xFF80			; nothing was copied to HRAM
