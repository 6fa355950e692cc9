; STOP puts the console to sleep.

	.module stop
	.area _FIXED (ABS)
	.org 0x0100
	nop
	jp	start

	.area _CODE
start:
	ld	sp, #0xE000
	stop
