; A copy by POP: SP is in ROM meanwhile.

	.module sp_borrowed
	.area _FIXED (ABS)
	.org 0x0100
	nop
	jp	start

	.area _CODE
start:
	ld	sp, #0xE000
	call	copy
1$:	jr	1$
copy:	ld	sp, #tiles		; SP is in ROM now
	pop	de
	ret
tiles:	.db	0x3C, 0x7E
