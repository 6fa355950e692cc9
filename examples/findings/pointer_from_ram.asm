; A store by a pointer that is kept in RAM.

	.module pointer_from_ram
	.area _FIXED (ABS)
	.org 0x0100
	nop
	jp	start

	.area _RAM
head:	.ds 2

	.area _CODE
start:
	ld	sp, #0xE000
1$:	ld	hl, #head		; the queue's next place
	ld	a, (hl+)
	ld	h, (hl)
	ld	l, a
	ld	(hl), b			; any address
	jr	1$
