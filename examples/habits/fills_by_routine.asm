; WRAM, VRAM and a table are filled by one routine that begins with its loop: `dec c` inside `dec b`.

	.module fills_by_routine
	.include "hardware.inc"
	.area _FIXED (ABS)
	.org 0x0100
	nop
	jp start

	.area _CODE
start:
	ld	sp, #0xE000
	xor	a
	ld	hl, #0xC000
	ld	bc, #0x1E00
	call	fill
	xor	a
	ld	hl, #_VRAM
	ld	bc, #0x2000
	call	fill
	ld	a, #7
	ld	hl, #0xC100
	ld	bc, #0x0128
	call	fill
loop:
	jr	loop

; BC bytes from HL on get A, but 256 more for each C that isn't 0.
fill:
	ld	(hl+), a
	dec	c
	jr	nz, fill
	dec	b
	jr	nz, fill
	ret
