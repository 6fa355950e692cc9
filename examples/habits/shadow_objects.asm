; Objects are put one after another into a copy of OAM, whose number of bytes is in one byte; what is left is hidden.

	.module shadow_objects
	.include "hardware.inc"
	.area _FIXED (ABS)
	.org 0x0100
	nop
	jp start

	.area _RAM
used:	.ds 1				; the bytes that are used

	.area _PAGES_RAM
objects: .ds 160

	.area _CODE
start:
	ld	sp, #0xE000
loop:
	xor	a
	ld	(used), a
	ld	b, #10
	ld	c, #16
	call	add
	ld	b, #20
	ld	c, #32
	call	add
	ld	b, #30
	ld	c, #64
	call	add
	call	hide
	jr	loop

; One more object, at Y = B and X = C.
add:
	ld	a, (used)
	cp	#160
	ret	nc
	ld	l, a
	ld	h, #>objects
	ld	a, b
	ld	(hl+), a
	ld	a, c
	ld	(hl+), a
	xor	a
	ld	(hl+), a
	ld	(hl+), a
	ld	a, l
	ld	(used), a
	ret

hide:
	ld	a, (used)
	ld	l, a
	ld	h, #>objects
1$:	ld	a, l
	cp	#160
	ret	nc
	ld	(hl), #0
	inc	l
	jr	1$
