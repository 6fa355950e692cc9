; The usual loops over memory: 2 KB are filled by a count of 16 bits, a picture is copied by the same, a font of one bit is
; copied with each byte twice, and a rectangle is filled row by row.

	.module copies
	.include "hardware.inc"
	.area _FIXED (ABS)
	.org 0x0100
	nop
	jp start

	.area _CODE
start:
	ld	sp, #0xE000
1$:	ldh	a, (rLY)
	cp	#144
	jr	c, 1$
	xor	a
	ldh	(rLCDC), a
	ld	hl, #_SCRN0
	ld	bc, #0x0800
	xor	a
	call	fill
	ld	hl, #picture
	ld	de, #_VRAM
	ld	bc, #picture_end - picture
	call	copy
	ld	hl, #font
	ld	de, #_VRAM + 0x0800
	ld	bc, #font_end - font
	call	copy_font
	ld	hl, #_SCRN0 + 0x63
	ld	de, #0x020C		; tile 2, 12 columns
	ld	c, #6			; 6 rows
	call	rectangle
loop:
	jr	loop

; Fills BC bytes from HL on with A.
fill:
	ld	d, a
1$:	ld	a, d
	ld	(hl+), a
	dec	bc
	ld	a, b
	or	c
	jr	nz, 1$
	ret

; Copies BC bytes from HL to DE.
copy:
	ld	a, (hl+)
	ld	(de), a
	inc	de
	dec	bc
	ld	a, b
	or	c
	jr	nz, copy
	ret

; Copies BC bytes from HL to DE, each of them twice.
copy_font:
	ld	a, (hl+)
	ld	(de), a
	inc	de
	ld	(de), a
	inc	de
	dec	bc
	ld	a, b
	or	c
	jr	nz, copy_font
	ret

; Fills C rows of E columns with tile D, from HL on.
rectangle:
	push	hl
	ld	b, e
	ld	a, d
1$:	ld	(hl+), a
	dec	b
	jr	nz, 1$
	pop	hl
	push	de
	ld	de, #32
	add	hl, de
	pop	de
	dec	c
	jr	nz, rectangle
	ret

picture: .ds 96
picture_end:
font:	.ds 128
font_end:
