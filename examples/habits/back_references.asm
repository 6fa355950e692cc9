; Bytes are unpacked: some that are there, or some that were unpacked before, from so far back. Each step of the unpacking is
; told apart, since the packed bytes are in ROM.

	.module back_references
	.include "hardware.inc"
	.area _FIXED (ABS)
	.org 0x0100
	nop
	jp start

	.area _CODE
start:
	ld	sp, #0xE000
	ld	hl, #packed
	ld	de, #0xC000
	call	unpack
loop:
	jr	loop

; Unpacks from HL to DE: a count of bytes that follow, or with bit 7 a count of bytes that are copied and how far back they
; are; 0 ends it.
unpack:
	ld	a, (hl+)
	or	a
	ret	z
	bit	7, a
	jr	nz, back
	ld	b, a
1$:	ld	a, (hl+)
	ld	(de), a
	inc	de
	dec	b
	jr	nz, 1$
	jr	unpack
back:
	and	#0x7F
	ld	b, a
	ld	a, (hl+)
	push	hl
	ld	c, a
	ld	a, e
	sub	c
	ld	l, a
	ld	a, d
	sbc	#0
	ld	h, a
2$:	ld	a, (hl+)
	ld	(de), a
	inc	de
	dec	b
	jr	nz, 2$
	pop	hl
	jr	unpack

packed:	.db	3, 1, 2, 3, 0x85, 3, 2, 7, 8, 0x84, 2, 0
