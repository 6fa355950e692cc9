; WRAM is cleared with two counters, as many start-ups do. The rounds of the outer one are told apart.
	.module clear_by_two_counters
	.include "hardware.inc"
	.area	_FIXED (ABS)
	.org	0x0100
	nop
	jp	Start
	.area	_CODE
Start:	ld	sp, #0xE000
	xor	a, a
	ld	hl, #0xC000
	ld	c, #0x1F
	ld	b, #0
1$:	ld	(hl+), a
	dec	b
	jr	nz, 1$
	dec	c
	jr	nz, 1$
2$:	jr	2$
