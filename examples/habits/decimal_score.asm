; A score of six decimal digits in three bytes: points are added by DAA, and the digits printed, the highest first.

	.module decimal_score
	.include "hardware.inc"
	.area _FIXED (ABS)
	.org 0x0100
	nop
	jp start

	.area _RAM
score:	.ds 3				; the lowest digits first

	.area _CODE
start:
	ld	sp, #0xE000
	xor	a
	ld	hl, #score
	ld	b, #3
1$:	ld	(hl+), a
	dec	b
	jr	nz, 1$
loop:
	ld	de, #0x0150		; 150 points
	call	add_points
	call	print
	jr	loop

; Adds the decimal number DE.
add_points:
	ld	hl, #score
	ld	a, (hl)
	add	a, e
	daa
	ld	(hl+), a
	ld	a, (hl)
	adc	a, d
	daa
	ld	(hl+), a
	ld	a, (hl)
	adc	a, #0
	daa
	ld	(hl), a
	ret

; Prints all six digits.
print:
	ld	hl, #score + 2
	ld	de, #_SCRN0
	ld	b, #3
1$:	ld	a, (hl)
	swap	a
	call	digit
	ld	a, (hl-)
	call	digit
	dec	b
	jr	nz, 1$
	ret

digit:
	and	#0x0F
	add	a, #0x30
	ld	(de), a
	inc	de
	ret
