; snake: a whole small game, with a score, a timer interrupt that sets the pace, and a VBlank interrupt that draws.
;
; The board has 16 times 16 cells, its walls among them, so that a cell is one byte: Y * 16 + X. Two pages of RAM hold it:
; `board` has the tile of each cell, and `body` is a ring of the snake's cells, with the indices `head` and `tail`. An index is
; always the low byte L with a fixed high byte H, so that no pointer leaves its page, whatever the index is.

	.module snake
	.include "hardware.inc"

BODY		= 11			; tiles after the digits and the blank
FOOD		= 12
WALL		= 13
FIRST_CELL	= 0x84
PACE		= 3			; ticks of the timer for each step, 16 ticks a second
PAUSE		= 24			; ticks that a lost game stays on the screen
SCORE_PLACE	= _SCRN0 + 7		; in the upper wall
SHADES		= 0b11100100		; colour 0 is white, colour 3 is black
LOST_SHADES	= 0b00011011

; --- fixed addresses ------------------------------------------------------------------------------------------------------
	.area _FIXED (ABS)
	.org 0x0040			; the VBlank interrupt comes here
	jp vblank
	.org 0x0050			; and the timer's here
	jp timer
	.org 0x0100			; the processor starts here
	nop
	jp start

; --- work RAM ---------------------------------------------------------------------------------------------------------------
	.area _RAM
head:		.ds 1			; index of the newest cell in the ring
tail:		.ds 1			; index of the oldest one
head_cell:	.ds 1			; what the handler draws
erased_cell:	.ds 1
food_cell:	.ds 1
score:		.ds 1			; two decimal digits
direction:	.ds 1			; 0 to 3: right, left, up, down
next_direction:	.ds 1
ticks:		.ds 1			; the timer counts them, the main loop takes them

	.area _PAGES_RAM
board:		.ds 256
body:		.ds 256

; --- start ------------------------------------------------------------------------------------------------------------------
	.area _CODE
start:
	ld	sp, #STACK_TOP
	ld	a, #256 - 16		; the board is two tiles to the right of the screen's corner, and one below it
	ldh	(rSCX), a
	ld	a, #256 - 8
	ldh	(rSCY), a
	xor	a			; TIMA overflows after 256 counts: 16 times a second
	ldh	(rTMA), a
	ld	a, #TACF_START | TACF_4KHZ
	ldh	(rTAC), a
	ld	a, #IEF_VBLANK | IEF_TIMER
	ldh	(rIE), a

new_game:
	di
	call	lcd_off
	call	copy_digits
	ld	hl, #tiles
	ld	de, #_VRAM + BODY * 16
	ld	b, #tiles_end - tiles
	call	copy
	ld	b, #WALL
	call	fill_map
	call	clear_board
	ld	a, #SHADES
	ldh	(rBGP), a
	ld	a, #LCDCF_ON | LCDCF_BG8000 | LCDCF_BGON
	ldh	(rLCDC), a
	xor	a
	ldh	(rIF), a
	ei

game_loop:
	halt
	nop
	call	read_direction
	ld	a, (ticks)
	cp	#PACE
	jr	c, game_loop
	xor	a
	ld	(ticks), a
	call	step
	jr	nc, game_loop		; the carry says that the game is lost

	ld	a, #LOST_SHADES
	ldh	(rBGP), a
pause:	halt
	nop
	ld	a, (ticks)
	cp	#PAUSE
	jr	c, pause
	jr	new_game

; --- the snake --------------------------------------------------------------------------------------------------------------

; Moves the snake by one cell: to its new head, and away from its tail unless it eats. Where it bites, the carry is set.
step:
	ld	a, (next_direction)
	ld	(direction), a
	add	a, #<ways
	ld	l, a
	ld	h, #>ways
	ld	a, (head_cell)
	add	a, (hl)
	ld	b, a			; the cell in front of the head
	ld	h, #>board
	ld	l, a
	ld	a, (hl)
	cp	#BODY
	jr	z, bite
	cp	#WALL
	jr	z, bite
	ld	(hl), #BODY
	ld	c, a			; what was there: BLANK or FOOD
	ld	hl, #head
	inc	(hl)
	ld	l, (hl)
	ld	h, #>body
	ld	(hl), b
	ld	a, b
	ld	(head_cell), a
	ld	(erased_cell), a	; nothing is to be erased, but where the tail moves
	ld	a, c
	cp	#FOOD
	jr	z, eat

	ld	hl, #tail
	ld	a, (hl)
	inc	(hl)
	ld	h, #>body
	ld	l, a
	ld	a, (hl)
	ld	(erased_cell), a
	ld	h, #>board
	ld	l, a
	ld	(hl), #BLANK
	and	a			; the carry is clear
	ret

bite:
	scf
	ret

eat:
	ld	a, (score)
	add	a, #1
	daa
	ld	(score), a

; Puts food on an empty cell, from a place on that nobody knows.
place_food:
	ld	h, #>board
	ldh	a, (rDIV)
	ld	l, a
1$:	ld	a, (hl)
	cp	#BLANK
	jr	z, 2$
	ld	a, l
	add	a, #35
	ld	l, a
	jr	1$
2$:	ld	(hl), #FOOD
	ld	a, l
	ld	(food_cell), a
	and	a			; the carry is clear
	ret

; Takes a new direction from the keys, but not the one straight back.
read_direction:
	ld	a, #P1F_GET_DPAD
	ldh	(rP1), a
	ldh	a, (rP1)		; the lines take some cycles to settle
	ldh	a, (rP1)
	cpl
	and	#0x0F			; bits 0 to 3: right, left, up, down
	ret	z
	ld	b, a
	ld	c, #0
1$:	srl	b
	jr	c, 2$
	inc	c
	jr	1$
2$:	ld	a, (direction)
	xor	#1			; straight back
	cp	c
	ret	z
	ld	a, c
	ld	(next_direction), a
	ret

; --- interrupts -------------------------------------------------------------------------------------------------------------

timer:
	push	af
	ld	a, (ticks)
	inc	a
	ld	(ticks), a
	pop	af
	reti

; Draws what a step may have changed.
vblank:
	push	af
	push	bc
	push	hl
	ld	a, (erased_cell)
	ld	b, #BLANK
	call	draw_cell
	ld	a, (food_cell)
	ld	b, #FOOD
	call	draw_cell
	ld	a, (head_cell)
	ld	b, #BODY
	call	draw_cell
	ld	hl, #SCORE_PLACE
	ld	a, (score)
	swap	a
	and	#0x0F
	ld	(hl+), a
	ld	a, (score)
	and	#0x0F
	ld	(hl), a
	pop	hl
	pop	bc
	pop	af
	reti

; Draws tile B at cell A: at 9800 + 32 * Y + X.
draw_cell:
	ld	c, a
	and	#0xF0
	add	a, a			; 32 * Y, its bit 8 in the carry
	ld	l, a
	ld	a, #>_SCRN0		; H is 98 or 99
	adc	a, #0
	ld	h, a
	ld	a, c
	and	#0x0F
	add	a, l
	ld	l, a
	ld	(hl), b
	ret

; --- a new game, while the LCD is off ---------------------------------------------------------------------------------------

; An empty board with walls at its edges, a snake of one cell and a piece of food. All of it is drawn as well.
clear_board:
	ld	hl, #board
1$:	ld	b, #WALL
	ld	a, l
	cp	#0x10			; the upper row
	jr	c, 2$
	cp	#0xF0			; the lower row
	jr	nc, 2$
	and	#0x0F			; the left column
	jr	z, 2$
	cp	#0x0F			; the right column
	jr	z, 2$
	ld	b, #BLANK
2$:	ld	(hl), b
	push	hl
	ld	a, l
	call	draw_cell
	pop	hl
	inc	l			; goes round within the page
	jr	nz, 1$

	xor	a
	ld	(head), a
	ld	(tail), a
	ld	(score), a
	ld	(direction), a		; to the right
	ld	(next_direction), a
	ld	(ticks), a
	ld	a, #FIRST_CELL
	ld	(head_cell), a
	ld	(erased_cell), a
	ld	(body), a
	ld	h, #>board
	ld	l, a
	ld	(hl), #BODY
	jp	place_food

tiles:					; BODY, FOOD, WALL
	.db	0x7E, 0x7E, 0xFF, 0x81, 0xFF, 0x81, 0xFF, 0x81, 0xFF, 0x81, 0xFF, 0x81, 0xFF, 0x81, 0x7E, 0x7E
	.db	0x00, 0x00, 0x18, 0x18, 0x3C, 0x24, 0x7E, 0x42, 0x7E, 0x42, 0x3C, 0x24, 0x18, 0x18, 0x00, 0x00
	.db	0xFF, 0x00, 0x81, 0x7E, 0x81, 0x7E, 0x81, 0x7E, 0x81, 0x7E, 0x81, 0x7E, 0x81, 0x7E, 0xFF, 0x00
tiles_end:

	.include "picture.inc"
	.include "digits.inc"

	.area _PAGES

ways:					; what a step adds to the cell, for each direction
	.db	1, 0xFF, 0xF0, 0x10
