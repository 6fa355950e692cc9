; banks: two rooms whose code and data lie in banks of their own (MBC5), and a wave in a third.
;
; The A key changes the room, which is drawn row by row, one in each frame. The VBlank handler lets the picture sway; its code
; and its table lie in a third bank, so it switches there, and back to the bank that was shown before.

	.module banks
	.include "hardware.inc"

BANK_BRICKS	= 1
BANK_STRIPES	= 2
BANK_WAVE	= 3
ROWS		= 18
COLUMNS		= 32			; the whole width of the tile map, since the picture sways
WAVE_STEPS	= 32

; --- fixed addresses, in bank 0 -------------------------------------------------------------------------------------------

	.area _FIXED (ABS)

	.org 0x0040			; the VBlank interrupt comes here
	jp vblank

	.org 0x0100			; the processor starts here
	nop
	jp start

; --- work RAM ---------------------------------------------------------------------------------------------------------------

	.area _RAM

current_bank:	.ds 1			; the bank that the main program wants to see at 4000-7FFF
room:		.ds 1			; 0: bricks, 1: stripes
row:		.ds 1			; the next row to be drawn; ROWS where all are
keys_before:	.ds 1
phase:		.ds 1			; of the wave
frame_done:	.ds 1

; --- bank 0 -----------------------------------------------------------------------------------------------------------------

	.area _CODE

start:
	ld	sp, #STACK_TOP
	call	lcd_off
	ld	hl, #tiles
	ld	de, #_VRAM
	ld	b, #tiles_end - tiles
	call	copy
	ld	a, #BANK_BRICKS
	call	show_bank
	xor	a
	ld	(room), a
	ld	(row), a
	ld	(keys_before), a
	ld	(phase), a
	ld	(frame_done), a
	ldh	(rSCY), a
	ld	a, #0b11100100		; colour 0 is white, colour 3 is black
	ldh	(rBGP), a
	ld	a, #LCDCF_ON | LCDCF_BG8000 | LCDCF_BGON
	ldh	(rLCDC), a

	xor	a
	ldh	(rIF), a
	ld	a, #IEF_VBLANK
	ldh	(rIE), a
	ei

main_loop:
	halt
	nop
	ld	a, (frame_done)
	and	a
	jr	z, main_loop
	xor	a
	ld	(frame_done), a
	call	draw_next_row
	call	change_room
	jr	main_loop

; Shows bank A at 4000-7FFF. The variable is written first: a handler that comes between both instructions then leaves the
; new bank, and the second instruction only shows it once more. In the other order it would go back to the old one.
show_bank:
	ld	(current_bank), a
	ld	(rROMB0), a
	ret

; Draws the room's next row, as long as there is one.
draw_next_row:
	ld	a, (row)
	cp	#ROWS
	ret	nc
	ld	c, a
	inc	a
	ld	(row), a

	ld	a, c			; DE = 9800 + 32 times the row
	rrca
	rrca
	rrca
	ld	b, a
	and	#0xE0
	ld	e, a
	ld	a, b
	and	#0x03
	add	a, #>_SCRN0
	ld	d, a

	ld	a, (room)
	and	a
	jr	nz, 1$
	ld	a, #BANK_BRICKS
	call	show_bank
	jp	draw_bricks		; they return to the main loop
1$:	ld	a, #BANK_STRIPES
	call	show_bank
	jp	draw_stripes

; Where A is pressed now and was not before, the other room is drawn from its first row on.
change_room:
	ld	a, #P1F_GET_BTN
	ldh	(rP1), a
	ldh	a, (rP1)
	ldh	a, (rP1)
	cpl
	ld	b, a
	ld	hl, #keys_before
	ld	a, (hl)
	ld	(hl), b
	cpl
	and	b
	bit	PADB_A, a
	ret	z
	ld	a, (room)
	xor	#1
	ld	(room), a
	xor	a
	ld	(row), a
	ret

; The VBlank handler: whatever bank is shown, the wave's is shown here, and the main program's when it is left.
vblank:
	push	af
	push	hl
	ld	a, #BANK_WAVE
	ld	(rROMB0), a
	call	sway
	ld	a, #1
	ld	(frame_done), a
	ld	a, (current_bank)
	ld	(rROMB0), a
	pop	hl
	pop	af
	reti

tiles:					; empty, the left and the right half of a brick, stripes
	.db	0, 0, 0, 0, 0, 0, 0, 0, 0, 0, 0, 0, 0, 0, 0, 0
	.db	0x7F, 0xFF, 0x7F, 0xC0, 0x7F, 0xC0, 0x7F, 0xC0, 0x7F, 0xC0, 0x7F, 0xC0, 0x7F, 0xC0, 0x00, 0xFF
	.db	0xFE, 0xFF, 0xFE, 0x03, 0xFE, 0x03, 0xFE, 0x03, 0xFE, 0x03, 0xFE, 0x03, 0xFE, 0x03, 0x00, 0xFF
	.db	0x81, 0x03, 0x03, 0x06, 0x06, 0x0C, 0x0C, 0x18, 0x18, 0x30, 0x30, 0x60, 0x60, 0xC0, 0xC0, 0x81
tiles_end:

	.include "picture.inc"

; --- bank 1: the room of bricks ------------------------------------------------------------------------------------------

	.area _BANK_1

bricks:					; eight rows of 32 tiles, one page
	.db	1,2,1,2,1,2,1,2,1,2,1,2,1,2,1,2,1,2,1,2,1,2,1,2,1,2,1,2,1,2,1,2
	.db	2,1,2,1,2,1,2,1,2,1,2,1,2,1,2,1,2,1,2,1,2,1,2,1,2,1,2,1,2,1,2,1
	.db	1,2,1,2,1,2,1,2,1,2,1,2,1,2,1,2,1,2,1,2,1,2,1,2,1,2,1,2,1,2,1,2
	.db	2,1,0,0,0,1,2,1,2,1,0,0,0,1,2,1,2,1,0,0,0,1,2,1,2,1,0,0,0,1,2,1
	.db	1,2,0,3,0,2,1,2,1,2,0,3,0,2,1,2,1,2,0,3,0,2,1,2,1,2,0,3,0,2,1,2
	.db	2,1,0,3,0,1,2,1,2,1,0,3,0,1,2,1,2,1,0,3,0,1,2,1,2,1,0,3,0,1,2,1
	.db	1,2,0,0,0,2,1,2,1,2,0,0,0,2,1,2,1,2,0,0,0,2,1,2,1,2,0,0,0,2,1,2
	.db	2,1,2,1,2,1,2,1,2,1,2,1,2,1,2,1,2,1,2,1,2,1,2,1,2,1,2,1,2,1,2,1

; Copies a row to DE. The table's low bytes are those of the tile map; L and E go round within their pages.
draw_bricks:
	ld	h, #>bricks
	ld	l, e
	ld	b, #COLUMNS
1$:	ld	a, (hl)
	ld	(de), a
	inc	l
	inc	e
	dec	b
	jr	nz, 1$
	ret

; --- bank 2: the room of stripes -----------------------------------------------------------------------------------------

	.area _BANK_2

; Draws row C to DE: stripes, but for each fourth place, which moves to the left from row to row.
draw_stripes:
	ld	b, #COLUMNS
1$:	ld	a, c
	and	#0x03
	jr	z, 2$
	ld	a, #3
2$:	ld	(de), a
	inc	c
	inc	e
	dec	b
	jr	nz, 1$
	ret

; --- bank 3: the wave ----------------------------------------------------------------------------------------------------

	.area _BANK_3

wave:
	.db	0, 1, 2, 2, 3, 3, 4, 4, 4, 4, 4, 3, 3, 2, 2, 1
	.db	0, 0xFF, 0xFE, 0xFE, 0xFD, 0xFD, 0xFC, 0xFC, 0xFC, 0xFC, 0xFC, 0xFD, 0xFD, 0xFE, 0xFE, 0xFF

; Moves the picture to the wave's next place.
sway:
	ld	a, (phase)
	inc	a
	and	#WAVE_STEPS - 1
	ld	(phase), a
	ld	l, a			; the table begins its page
	ld	h, #>wave
	ld	a, (hl)
	ldh	(rSCX), a
	ret
