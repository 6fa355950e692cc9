; LD SP in a routine.

	.module sp_set_in_routine
	.area _FIXED (ABS)
	.org 0x0100
	nop
	jp	start

	.area _CODE
start:
	ld	sp, #0xE000
	call	restart
1$:	jr	1$
restart:
	ld	sp, #0xE000
	jp	start
