; OAM DMA from cartridge RAM that is disabled.

	.module dma_from_sram
	.area _FIXED (ABS)
	.org 0x0100
	nop
	jp	start

	.area _CODE
start:
	ld	sp, #0xE000
	ld	hl, #dma
	ld	c, #0x80
1$:	ld	a, (hl+)
	ldh	(c), a
	inc	c
	ld	a, c
	cp	#0x8A
	jr	c, 1$
2$:	call	0xFF80
	jr	2$
dma:	ld	a, #0xA0		; the shadow OAM is in cartridge RAM
	ldh	(0x46), a
	ld	a, #40
3$:	dec	a
	jr	nz, 3$
	ret
