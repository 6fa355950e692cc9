; The interrupt of STAT scrolls each line by a table of a whole page; VBlank moves the table on.

	.module raster_table
	.include "hardware.inc"
rSTAT		= 0xFF41	; the picture's mode in bits 0 and 1

	.area _FIXED (ABS)
	.org 0x0040
	jp vblank
	.org 0x0048
	jp stat
	.org 0x0100
	nop
	jp start

	.area _RAM
phase:	.ds 1

	.area _PAGES
waves:
	.rept 64
	.db 0,1,2,1
	.endm

	.area _CODE
start:
	ld	sp, #0xE000
	xor	a
	ld	(phase), a
	ldh	(rIF), a
	ld	a, #0x08
	ldh	(rSTAT), a
	ld	a, #3
	ldh	(rIE), a
	ei
1$:	halt
	nop
	jr	1$

vblank:
	push	af
	ld	a, (phase)
	inc	a
	ld	(phase), a
	pop	af
	reti

stat:
	push	af
	push	hl
	ld	a, (phase)
	ld	l, a
	ldh	a, (rLY)
	add	a, l
	ld	l, a
	ld	h, #>waves
	ld	a, (hl)
	ldh	(rSCX), a
	pop	hl
	pop	af
	reti
