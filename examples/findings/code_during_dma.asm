; OAM DMA is started by code in ROM.

	.module code_during_dma
	.area _FIXED (ABS)
	.org 0x0100
	nop
	jp	start

	.area _CODE
start:
	ld	sp, #0xE000
	ld	a, #0xC0
	ldh	(0x46), a
	ld	a, #40			; fetched while DMA runs
1$:	dec	a
	jr	nz, 1$
2$:	jr	2$
