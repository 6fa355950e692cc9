; The code runs into a table.

	.module undefined_opcode
	.area _FIXED (ABS)
	.org 0x0100
	nop
	jp	start

	.area _CODE
start:
	ld	sp, #0xE000
	ld	a, (speeds)		; no JP or RET follows
speeds:	.db	0xD3, 0xFD		; D3 is no instruction
