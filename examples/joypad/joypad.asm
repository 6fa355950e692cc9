; joypad: a ball that the direction keys move.
;
; The main loop sleeps (HALT) until the VBlank handler has run, reads the keys and moves the ball. The handler copies the
; ball's place to OAM, which is open in VBlank.

	.module joypad
	.include "hardware.inc"

BALL_TILE	= 0
FIELD_TILE	= 1
LEFT_EDGE	= 8			; objects' coordinates are those of the screen plus 8 and 16
RIGHT_EDGE	= 160
TOP_EDGE	= 16
BOTTOM_EDGE	= 152

; --- fixed addresses ------------------------------------------------------------------------------------------------------

	.area _FIXED (ABS)

	.org 0x0040			; the VBlank interrupt comes here
	jp vblank

	.org 0x0100			; the processor starts here; the build puts the header at 0104 to 014F
	nop
	jp start

; --- work RAM ---------------------------------------------------------------------------------------------------------------

	.area _RAM

ball_x:		.ds 1
ball_y:		.ds 1
frame_done:	.ds 1			; the handler sets it, the main loop clears it

; --- start ------------------------------------------------------------------------------------------------------------------

	.area _CODE

start:
	ld	sp, #STACK_TOP
	call	lcd_off
	call	clear_objects
	ld	hl, #tiles
	ld	de, #_VRAM
	ld	b, #tiles_end - tiles
	call	copy
	ld	b, #FIELD_TILE
	call	fill_map

	ld	a, #84			; the middle of the screen
	ld	(ball_x), a
	ld	(ball_y), a
	xor	a
	ld	(frame_done), a
	ldh	(rSCX), a
	ldh	(rSCY), a
	ld	a, #0b11100100		; colour 0 is white, colour 3 is black
	ldh	(rBGP), a
	ldh	(rOBP0), a
	ld	a, #LCDCF_ON | LCDCF_BG8000 | LCDCF_OBJON | LCDCF_BGON
	ldh	(rLCDC), a

	xor	a
	ldh	(rIF), a		; forget what was requested before
	ld	a, #IEF_VBLANK
	ldh	(rIE), a
	ei

; --- main loop --------------------------------------------------------------------------------------------------------------

main_loop:
	halt				; sleep until an interrupt
	nop				; (a NOP after HALT is safe whatever IME is)
	ld	a, (frame_done)
	and	a
	jr	z, main_loop
	xor	a
	ld	(frame_done), a
	call	read_keys
	call	move_ball
	jr	main_loop

; Moves the ball by one pixel for each direction in B, but not over the edges.
move_ball:
	ld	hl, #ball_x
	bit	PADB_RIGHT, b
	jr	z, 1$
	ld	a, (hl)
	cp	#RIGHT_EDGE
	jr	nc, 1$
	inc	(hl)
1$:	bit	PADB_LEFT, b
	jr	z, 2$
	ld	a, #LEFT_EDGE
	cp	(hl)
	jr	nc, 2$
	dec	(hl)
2$:	inc	l			; ball_y follows ball_x
	bit	PADB_DOWN, b
	jr	z, 3$
	ld	a, (hl)
	cp	#BOTTOM_EDGE
	jr	nc, 3$
	inc	(hl)
3$:	bit	PADB_UP, b
	ret	z
	ld	a, #TOP_EDGE
	cp	(hl)
	ret	nc
	dec	(hl)
	ret

; B = the keys that are held, in the bits PADB_A to PADB_DOWN.
read_keys:
	ld	a, #P1F_GET_DPAD
	ldh	(rP1), a
	ldh	a, (rP1)		; the lines take some cycles to settle
	ldh	a, (rP1)
	cpl
	and	#0x0F
	swap	a
	ld	b, a
	ld	a, #P1F_GET_BTN
	ldh	(rP1), a
	ldh	a, (rP1)
	ldh	a, (rP1)
	ldh	a, (rP1)
	cpl
	and	#0x0F
	or	b
	ld	b, a
	ld	a, #P1F_GET_NONE
	ldh	(rP1), a
	ret

; --- the VBlank handler -----------------------------------------------------------------------------------------------------

vblank:
	push	af
	push	hl
	ld	hl, #_OAMRAM		; object 0
	ld	a, (ball_y)
	ld	(hl+), a
	ld	a, (ball_x)
	ld	(hl+), a
	ld	a, #BALL_TILE
	ld	(hl+), a
	xor	a
	ld	(hl), a
	ld	a, #1
	ld	(frame_done), a
	pop	hl
	pop	af
	reti

; Hides all objects. The index is counted in A, where CP and JR bound it, and copied to L.
clear_objects:
	ld	h, #>_OAMRAM
	xor	a
1$:	ld	l, a
	ld	(hl), #0
	inc	a
	cp	#OAM_COUNT * 4
	jr	c, 1$
	ret

; Two bytes a line: the low bits of eight pixels' colours, then the high bits.
tiles:
	.db	0x3C, 0x3C, 0x7E, 0x42, 0xFF, 0x81, 0xFF, 0x81, 0xFF, 0x81, 0xFF, 0x81, 0x7E, 0x42, 0x3C, 0x3C
	.db	0x01, 0x00, 0x00, 0x00, 0x00, 0x00, 0x00, 0x00, 0x10, 0x00, 0x00, 0x00, 0x00, 0x00, 0x00, 0x00
tiles_end:

	.include "picture.inc"
