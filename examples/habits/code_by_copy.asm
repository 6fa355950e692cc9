; One routine copies tiles and a map to VRAM, and the OAM DMA routine to HRAM. Its rounds are told apart only while it copies code.

	.module code_by_copy
	.include "hardware.inc"
	.area _FIXED (ABS)
	.org 0x0040
	jp	vblank
	.org 0x0100
	nop
	jp start

	.area _RAM
shadow:	.ds 160

	.area _HRAM
transfer: .ds 10

	.area _CODE
start:
	ld	sp, #0xE000
	ld	hl, #transfer_code
	ld	de, #transfer
	ld	bc, #transfer_end - transfer_code
	call	copy
	ld	hl, #tiles
	ld	de, #_VRAM
	ld	bc, #2048
	call	copy
	ld	hl, #tiles
	ld	de, #_SCRN0
	ld	bc, #1024
	call	copy
	xor	a
	ldh	(rIF), a
	inc	a
	ldh	(rIE), a
	ei
loop:
	halt
	nop
	jr	loop

vblank:
	push	af
	call	transfer
	pop	af
	reti

; BC bytes from HL on go to DE.
copy:
	ld	a, (hl+)
	ld	(de), a
	inc	de
	dec	bc
	ld	a, b
	or	a, c
	jr	nz, copy
	ret

transfer_code:
	ld	a, #>shadow
	ldh	(rDMA), a
	ld	a, #40
1$:	dec	a
	jr	nz, 1$
	ret
transfer_end:

tiles:
	.rept 64
	.db 0x18, 0x18, 0x3C, 0x3C, 0x7E, 0x7E, 0xFF, 0xFF, 0xFF, 0xFF, 0x7E, 0x7E, 0x3C, 0x3C, 0x18, 0x18
	.endm
