; A store at a table's start plus a 16-bit offset that nothing bounds.

	.module unbounded_pointer
	.area _FIXED (ABS)
	.org 0x0100
	nop
	jp	start

	.area _CODE
start:
	ld	sp, #0xE000
loop:	ldh	a, (0x04)		; DIV and TIMA: any values
	ld	e, a
	ldh	a, (0x05)
	ld	d, a
	ld	hl, #0xC000
	add	hl, de
	ld	(hl), #1		; any address
	jr	loop
