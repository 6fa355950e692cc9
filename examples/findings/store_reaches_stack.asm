; A routine that clears all of work RAM, its own return address too.

	.module store_reaches_stack
	.area _FIXED (ABS)
	.org 0x0100
	nop
	jp	start

	.area _CODE
start:
	ld	sp, #0xE000
	call	clear
loop:	jr	loop
clear:	ld	hl, #0xC000
1$:	xor	a
	ld	(hl+), a		; up to DFFF
	ld	a, h
	cp	#0xE0
	jr	c, 1$
	ret
