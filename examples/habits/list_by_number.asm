; A list of sixteen elements, each with the number of the next one. A number is compared before it is used.

	.module list_by_number
	.include "hardware.inc"

	.area _FIXED (ABS)
	.org 0x0100
	nop
	jp start

	.area _RAM
first:	.ds 1

	.area _PAGES_RAM
next:	.ds 16
value:	.ds 16

	.area _CODE
start:
	ld	sp, #0xE000
	ld	hl, #next
	ld	c, #1
1$:	ld	a, c
	ld	(hl+), a
	inc	c
	cp	#15
	jr	c, 1$
	ld	(hl), #0xFF
	xor	a
	ld	(first), a
loop:
	call	walk
	jr	loop

walk:
	ld	a, (first)
1$:	cp	#16
	ret	nc
	ld	e, a
	ld	d, #>value
	add	a, #16
	ld	l, a
	ld	h, d
	inc	(hl)
	ld	a, (de)
	jr	1$
