; Text follows the call of the procedure that prints it, and ends with a 0. The procedure pops its return address, goes
; over the text, and jumps to what follows it.

	.module text_behind_call
	.include "hardware.inc"
	.area _FIXED (ABS)
	.org 0x0100
	nop
	jp start

	.area _CODE
start:
	ld	sp, #0xE000
	ld	de, #_SCRN0
	call	print
	.ascii "SCORE"
	.db	0
	ld	de, #_SCRN0 + 32
	call	print
	.ascii "LIVES"
	.db	0
loop:
	jr	loop

; Prints the text after the call at DE.
print:
	pop	hl
1$:	ld	a, (hl+)
	or	a
	jr	z, 2$
	ld	(de), a
	inc	de
	jr	1$
2$:	jp	(hl)
