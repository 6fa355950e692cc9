; An address from RAM is pushed, and RET goes there.

	.module unknown_return
	.area _FIXED (ABS)
	.org 0x0100
	nop
	jp	start

	.area _RAM
next:	.ds 2

	.area _CODE
start:
	ld	sp, #0xE000
1$:	call	act
	jr	1$
act:	ld	hl, #next
	ld	a, (hl+)
	ld	h, (hl)
	ld	l, a
	push	hl
	ret				; to any address
