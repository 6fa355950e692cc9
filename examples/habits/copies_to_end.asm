; Copies that end by one of their two pointers, with no counter: by the page of the destination, by the page of the source, and by
; the whole address of the source's end.

	.module copies_to_end
	.include "hardware.inc"
	.area _FIXED (ABS)
	.org 0x0100
	nop
	jp start

buffer	= 0xC200
tiles	= 0xC800

	.area _CODE
start:
	ld	sp, #STACK_TOP
	ld	hl, #font			; up to the page 88 of the destination
	ld	de, #_VRAM
1$:	ld	a, (hl+)
	ld	(de), a
	inc	de
	ld	a, d
	cp	#0x88
	jr	nz, 1$
	ld	hl, #levels			; up to the page 24 of the source
	ld	de, #buffer
2$:	ld	a, (hl+)
	ld	(de), a
	inc	de
	bit	2, h
	jr	z, 2$
	ld	hl, #font			; up to the end's address
	ld	de, #tiles
3$:	ld	a, (hl+)
	ld	(de), a
	inc	de
	ld	a, h
	cp	#>font_end
	jr	nz, 3$
	ld	a, l
	cp	#<font_end
	jr	nz, 3$
4$:	halt
	nop
	jr	4$

levels	= 0x2000

font:	.ds 320
font_end:
	.db 0
