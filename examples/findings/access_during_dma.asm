; The routine in HRAM writes work RAM while DMA runs.

	.module access_during_dma
	.area _FIXED (ABS)
	.org 0x0100
	nop
	jp	start

	.area _CODE
start:
	ld	sp, #0xE000
	ld	hl, #dma
	ld	c, #0x80
1$:	ld	a, (hl+)
	ldh	(c), a
	inc	c
	ld	a, c
	cp	#0x90
	jr	c, 1$
2$:	call	0xFF80
	jr	2$
dma:	ld	a, #0xC0
	ldh	(0x46), a
	ld	(0xC0A0), a		; work RAM, while DMA runs
	ld	a, #40
3$:	dec	a
	jr	nz, 3$
	ret
