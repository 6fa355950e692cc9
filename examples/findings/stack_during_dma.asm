; The routine in HRAM returns before DMA has ended.

	.module stack_during_dma
	.area _FIXED (ABS)
	.org 0x0100
	nop
	jp	start

	.area _CODE
start:
	ld	sp, #0xE000
	ld	hl, #dma
	ld	c, #0x80
1$:	ld	a, (hl+)
	ldh	(c), a
	inc	c
	ld	a, c
	cp	#0x90
	jr	c, 1$
2$:	call	0xFF80
	jr	2$
dma:	ld	a, #0xC0
	ldh	(0x46), a
	ld	a, #30			; too short: 40 rounds are 160 M-cycles
3$:	dec	a
	jr	nz, 3$
	ret
