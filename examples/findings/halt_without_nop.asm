; HALT while interrupts are off, and no NOP after it.

	.module halt_without_nop
	.area _FIXED (ABS)
	.org 0x0100
	nop
	jp	start

	.area _CODE
start:
	ld	sp, #0xE000
	di
1$:	halt
	inc	a			; may run twice
	jr	1$
