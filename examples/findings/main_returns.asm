; RET in the main program.

	.module main_returns
	.area _FIXED (ABS)
	.org 0x0100
	nop
	jp	start

	.area _CODE
start:
	ld	sp, #0xE000
	ret				; nobody called it
