; All of work RAM is cleared at the start, the stack with it. Nothing has been pushed yet, so it does no harm; but the words
; of the stack may be written by pushes alone. Clear up to the stack, by a page and its index (the tutorial's last step).

	.module clears_all_ram
	.area _FIXED (ABS)
	.org 0x0100
	nop
	jp start

	.area _CODE
start:
	ld	sp, #0xE000
	ld	hl, #0xC000
	xor	a
clear:
	ld	(hl+), a
	bit	5, h			; until HL is E000
	jr	z, clear
loop:
	jr	loop
