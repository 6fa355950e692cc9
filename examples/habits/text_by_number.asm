; One of four texts is copied into a buffer up to its 0: nothing counts the letters, and the loop ends by RET Z. So where the loop
; begins each text is told apart.

	.module text_by_number
	.include "hardware.inc"
	.area _FIXED (ABS)
	.org 0x0100
	nop
	jp start

	.area _RAM
turn:	.ds 1
line:	.ds 20

	.area _CODE
start:
	ld	sp, #0xE000
	xor	a
	ld	(turn), a
loop:
	ld	a, (turn)
	inc	a
	ld	(turn), a
	call	copy_text
	jr	loop

; Copies text A, of 0 to 3, to the line.
copy_text:
	and	#3
	add	a, a
	ld	e, a
	ld	d, #0
	ld	hl, #texts
	add	hl, de
	ld	a, (hl+)
	ld	h, (hl)
	ld	l, a
	ld	de, #line
1$:	ld	a, (hl+)
	or	a, a
	ret	z
	ld	(de), a
	inc	de
	jr	1$

texts:	.dw	north, east, south, west
north:	.asciz	"NORTH"
east:	.asciz	"EAST"
south:	.asciz	"SOUTH"
west:	.asciz	"WEST"
