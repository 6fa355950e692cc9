; SP is loaded from a variable that nothing bounds.

	.module sp_moved
	.area _FIXED (ABS)
	.org 0x0100
	nop
	jp	start

	.area _RAM
saved_sp:	.ds 2

	.area _CODE
start:
	ld	sp, #0xE000
	ld	hl, #saved_sp
	ld	a, (hl+)
	ld	h, (hl)
	ld	l, a
	ld	sp, hl			; any address
	call	play
1$:	jr	1$
play:	ret
