; transfer: ten balls that bounce, with an OAM transfer in each frame.
;
; The balls are in a copy of OAM in work RAM. The main loop moves them there, and the VBlank handler starts the transfer that
; copies the whole page to OAM. While it goes on the processor has high RAM alone, so the code that starts it and waits for its
; end lies there, and calls and returns only outside it.

	.module transfer
	.include "hardware.inc"

BALLS		= 10
BALL_TILE	= 0
EMPTY_TILE	= 1
LEFT_EDGE	= 8			; objects' coordinates are those of the screen plus 8 and 16
RIGHT_EDGE	= 160
TOP_EDGE	= 16
BOTTOM_EDGE	= 152
TRANSFER_ROUNDS	= 40			; of four M-cycles each: 160 bytes are copied in 160 M-cycles

; --- fixed addresses ------------------------------------------------------------------------------------------------------

	.area _FIXED (ABS)

	.org 0x0040			; the VBlank interrupt comes here
	jp vblank

	.org 0x0100			; the processor starts here
	nop
	jp start

; --- RAM ------------------------------------------------------------------------------------------------------------------

	.area _RAM

shadow:		.ds 256			; the copy of OAM, alone in its page: C000
speed:		.ds 256			; what is added to Y and X in each frame, at the same places: C100
frame_done:	.ds 1			; the handler sets it, the main loop clears it

	.area _HRAM

transfer:	.ds transfer_code_end - transfer_code

; --- start ------------------------------------------------------------------------------------------------------------------

	.area _CODE

start:
	ld	sp, #STACK_TOP
	call	lcd_off
	call	copy_transfer_code
	ld	hl, #tiles
	ld	de, #_VRAM
	ld	b, #tiles_end - tiles
	call	copy
	ld	b, #EMPTY_TILE
	call	fill_map
	call	place_balls

	xor	a
	ld	(frame_done), a
	ldh	(rSCX), a
	ldh	(rSCY), a
	ld	a, #0b11100100		; colour 0 is white, colour 3 is black
	ldh	(rBGP), a
	ldh	(rOBP0), a
	ld	a, #LCDCF_ON | LCDCF_BG8000 | LCDCF_OBJON | LCDCF_BGON
	ldh	(rLCDC), a

	xor	a
	ldh	(rIF), a
	ld	a, #IEF_VBLANK
	ldh	(rIE), a
	ei				; only now: the handler calls the code in high RAM

main_loop:
	halt
	nop
	ld	a, (frame_done)
	and	a
	jr	z, main_loop
	xor	a
	ld	(frame_done), a
	call	move_balls
	jr	main_loop

; --- the VBlank handler -----------------------------------------------------------------------------------------------------

vblank:
	push	af
	call	transfer
	ld	a, #1
	ld	(frame_done), a
	pop	af
	reti

; Starts the transfer and waits until it is over. This is copied to high RAM, at `transfer`, and runs there.
transfer_code:
	ld	a, #>shadow
	ldh	(rDMA), a
	ld	a, #TRANSFER_ROUNDS	; 2 M-cycles, then 40 rounds of 4 less one: 161 M-cycles
1$:	dec	a
	jr	nz, 1$
	ret
transfer_code_end:

copy_transfer_code:
	ld	hl, #transfer_code
	ld	c, #<transfer
	ld	b, #transfer_code_end - transfer_code
1$:	ld	a, (hl+)
	ldh	(c), a
	inc	c
	dec	b
	jr	nz, 1$
	ret

; --- the balls ------------------------------------------------------------------------------------------------------------

; Adds its speed to each coordinate of each ball, and turns the speed at the edges. L is the place in both pages.
move_balls:
	xor	a
1$:	ld	l, a
	ld	bc, #TOP_EDGE * 256 + BOTTOM_EDGE
	call	move_coordinate
	inc	l
	ld	bc, #LEFT_EDGE * 256 + RIGHT_EDGE
	call	move_coordinate
	ld	a, l
	add	a, #3			; the next ball
	cp	#BALLS * 4
	jr	c, 1$			; (C and not NZ: so A is below the number, whatever it was before)
	ret

; Moves the coordinate at L between B and C.
move_coordinate:
	ld	h, #>speed
	ld	d, (hl)
	ld	h, #>shadow
	ld	a, (hl)
	add	a, d
	ld	(hl), a
	cp	b
	jr	z, 1$
	cp	c
	ret	nz
1$:	xor	a
	sub	d
	ld	h, #>speed
	ld	(hl), a
	ret

; Copies the balls' places and speeds to their pages and hides the other objects.
place_balls:
	ld	hl, #shadow
	xor	a
1$:	ld	(hl), a
	inc	l			; goes round within the page
	jr	nz, 1$
	ld	hl, #first_places
	ld	de, #shadow
	ld	b, #BALLS * 4
	call	copy
	ld	hl, #first_speeds
	ld	de, #speed
	ld	b, #BALLS * 4
	jp	copy

tiles:
	.db	0x3C, 0x3C, 0x7E, 0x42, 0xFF, 0x81, 0xFF, 0x81, 0xFF, 0x81, 0xFF, 0x81, 0x7E, 0x42, 0x3C, 0x3C
	.db	0, 0, 0, 0, 0, 0, 0, 0, 0, 0, 0, 0, 0, 0, 0, 0
tiles_end:

first_places:				; Y, X, tile, attributes
	.db	30, 20, BALL_TILE, 0
	.db	41, 34, BALL_TILE, 0
	.db	52, 48, BALL_TILE, 0
	.db	63, 62, BALL_TILE, 0
	.db	74, 76, BALL_TILE, 0
	.db	85, 90, BALL_TILE, 0
	.db	96, 104, BALL_TILE, 0
	.db	107, 118, BALL_TILE, 0
	.db	118, 132, BALL_TILE, 0
	.db	129, 146, BALL_TILE, 0

first_speeds:				; of Y and X: one pixel, or minus one (FF)
	.db	1, 1, 0, 0
	.db	0xFF, 1, 0, 0
	.db	1, 0xFF, 0, 0
	.db	0xFF, 0xFF, 0, 0
	.db	1, 1, 0, 0
	.db	0xFF, 1, 0, 0
	.db	1, 0xFF, 0, 0
	.db	0xFF, 0xFF, 0, 0
	.db	1, 1, 0, 0
	.db	0xFF, 1, 0, 0

	.include "picture.inc"
