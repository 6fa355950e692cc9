; A jump into video RAM.

	.module runs_outside_code
	.area _FIXED (ABS)
	.org 0x0100
	nop
	jp	start

	.area _CODE
start:
	ld	sp, #0xE000
	jp	0x8000			; video RAM
