; A VBlank handler that maps its own bank, and at its end writes the variable of the mapped bank without mapping it.

	.module bank_not_restored
	.area _FIXED (ABS)
	.org 0x0008			; RST 08 maps bank A, and keeps its number
	ldh	(hBank), a
	ld	(0x2000), a
	ret
	.org 0x0040
	jp	vblank
	.org 0x0100
	nop
	jp	start

	.area _HRAM
hBank:	.ds 1

	.area _RAM
x:	.ds 1
note:	.ds 1

	.area _CODE
start:
	ld	sp, #0xE000
	xor	a
	ld	(note), a
	ld	a, #2
	rst	0x08
	xor	a
	ldh	(0x0F), a
	inc	a
	ldh	(0xFF), a		; VBlank alone
	ei
1$:	call	move
	jr	1$

vblank:
	push	af
	push	hl
	ldh	a, (hBank)
	push	af
	ld	a, #3
	rst	0x08
	call	play
	pop	af
	ldh	(hBank), a		; rst 0x08 is meant
	pop	hl
	pop	af
	reti

	.area _BANK_2
move:	ld	hl, #x
	inc	(hl)
	ret

	.area _BANK_3
notes:	.db	0x10, 0xD3, 0x10, 0xD3
play:	ld	hl, #note
	ld	a, (hl)
	inc	a
	and	#3
	ld	(hl), a
	ld	h, #>notes
	ld	l, a
	ld	a, (hl)
	ldh	(0x13), a
	ret
