; A jump table that crosses a page: `rst` adds twice A to its address, with `inc h` on carry.
	.module table_over_page
	.include "hardware.inc"
	.area	_FIXED (ABS)
	.org	0x0028			; goes to entry A of the table after the rst
	pop	hl
	add	a, a
	add	a, l
	ld	l, a
	jr	nc, 1$
	inc	h
1$:	ld	a, (hl+)
	ld	h, (hl)
	ld	l, a
	jp	(hl)
	.org	0x0100
	nop
	jp	Start
	.area	_DATA
wCount:	.ds 1
	.area	_CODE
Start:	ld	sp, #0xE000
	xor	a, a
	ld	(wCount), a
Loop:	ldh	a, (rDIV)
	call	Run
	jr	Loop
	.area	_PAGES
	.ds	0xF2
Run:	cp	#10			; at 10F2: the table is at 10F6 to 1109
	ret	nc
	rst	0x28
	.dw	Nothing, Count, Nothing, Count, Back, Nothing, Count, Nothing, Count, Back
Nothing:
	ret
Count:	ld	hl, #wCount
	inc	(hl)
	ret
Back:	ld	hl, #wCount
	dec	(hl)
	ret
