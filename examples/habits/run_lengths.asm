; A picture is unpacked from pairs of a count and a byte; a count of 0 ends it. How much that is no rule can know, so the loop
; ends by its target's page too.

	.module run_lengths
	.include "hardware.inc"
	.area _FIXED (ABS)
	.org 0x0100
	nop
	jp start

	.area _CODE
start:
	ld	sp, #0xE000
	ld	hl, #packed
	ld	de, #_SCRN0
	call	unpack
loop:
	jr	loop

; Unpacks from HL to DE.
unpack:
	ld	a, (hl+)
	or	a
	ret	z
	ld	b, a
	ld	a, (hl+)
	ld	c, a
1$:	ld	a, d
	cp	#>_SCRN0 + 4
	ret	nc
	ld	a, c
	ld	(de), a
	inc	de
	dec	b
	jr	nz, 1$
	jr	unpack

packed:	.db	8, 1, 4, 2, 8, 1, 0
