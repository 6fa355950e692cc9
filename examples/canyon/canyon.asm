; canyon: a flight through two canyons, with enemies, shots, a score, screens and tunes, in six banks (MBC5).
;
; The picture goes by one pixel in each frame, and each eighth frame a column of tiles is read from the level's bank: the
; main loop makes it, the VBlank handler puts it into the tile map. What a column has is kept in a ring of 32 columns too, where
; the ship and its shots look for walls. Ship, shots, enemies and bullets are objects; they are put into a copy of OAM in each
; frame, which the handler transfers from high RAM. The timer's handler plays a tune from a bank of its own.
;
; `bank` has the bank that the main program shows; the macro far_call goes to another bank and back.

	.module canyon
	.include "hardware.inc"

; --- registers that hardware.inc does not have ------------------------------------------------------------------------------

rNR11		= 0xFF11		; sound: length and duty, envelope and frequency of the first channel
rNR12		= 0xFF12
rNR13		= 0xFF13
rNR14		= 0xFF14
rNR21		= 0xFF16		; the same of the second channel
rNR22		= 0xFF17
rNR23		= 0xFF18
rNR24		= 0xFF19
rNR41		= 0xFF20		; the noise channel
rNR42		= 0xFF21
rNR43		= 0xFF22
rNR44		= 0xFF23
rNR50		= 0xFF24
rNR51		= 0xFF25
rNR52		= 0xFF26
rOBP1		= 0xFF49
rWY		= 0xFF4A
rWX		= 0xFF4B
_SCRN1		= 0x9C00		; the second tile map, which the window shows

; --- what the game is made of -----------------------------------------------------------------------------------------------

BANK_HOME	= 1			; with the enemies' code, and tiles
BANK_SCREENS	= 2
BANK_LEVELS	= 3			; 3 and 4: one for each level
BANK_MUSIC	= 5

LEVELS		= 2
LEVEL_COLUMNS	= 96			; columns of a level, of 16 tiles each
ROWS		= 16
SHIPS		= 3			; at the start
SHOTS		= 4
ENEMIES		= 8
ENEMY_SIZE	= 8
BULLETS		= 4

; A shot has two bytes: Y (0: it is not there) and X. A bullet has four: Y (0: not there), X, what is added to Y, and to X.
; An enemy has eight: its kind (0: it is not there), Y, X, and what its kind keeps.
ENEMY_KIND	= 0
ENEMY_Y		= 1
ENEMY_X		= 2
ENEMY_TIMER	= 3
ENEMY_BASE	= 4

KIND_NONE	= 0
KIND_DRONE	= 1
KIND_WAVER	= 2
KIND_HUNTER	= 3
KIND_MINE	= 4
KIND_GUNNER	= 5
KIND_BLAST	= 6
KINDS		= 7

TILE_SHIP	= 1			; and 2
TILE_SHOT	= 3
TILE_BULLET	= 4
TILE_ENEMIES	= 5			; one for each kind but the first
TILE_BLAST	= 10			; 10 to 12
TILE_DIGITS	= 0x30			; digits and letters are where ASCII has them
TILE_LETTERS	= 0x41
TILE_BLANK	= 0x20
FIRST_WALL	= 0x10			; tiles 10 to 1F are walls

STATE_TITLE	= 0
STATE_INTRO	= 1
STATE_PLAY	= 2
STATE_PAUSE	= 3
STATE_LOST	= 4
STATE_OVER	= 5
STATE_WON	= 6
STATES		= 7

TUNE_TITLE	= 0
TUNE_LEVEL	= 1
TUNE_OVER	= 2
TUNES		= 3

TEXT_NAME	= 0
TEXT_START	= 1
TEXT_BEST	= 2
TEXT_LEVEL	= 3
TEXT_OVER	= 4
TEXT_WON	= 5
TEXT_THANKS	= 6
TEXTS		= 7

LEFT_EDGE	= 12			; where the ship may go, in objects' coordinates
RIGHT_EDGE	= 150
TOP_EDGE	= 18
BOTTOM_EDGE	= 134
SHADES		= 0b11100100
DARK_SHADES	= 0b11111001
TRANSFER_ROUNDS	= 40
LCDC_SHOWN	= LCDCF_ON | LCDCF_BG8000 | LCDCF_OBJON | LCDCF_BGON
LCDC_PLAYING	= LCDC_SHOWN | 0x60	; the window with the second map

; Calls a procedure of another bank, and goes back to the bank that was shown.
	.macro	far_call number, procedure
	ld	a, (bank)
	push	af
	ld	a, #number
	rst	0x08
	call	procedure
	pop	af
	rst	0x08
	.endm

; --- fixed addresses --------------------------------------------------------------------------------------------------------

	.area _FIXED (ABS)

	.org 0x0008			; RST 08 shows bank A
	ld	(bank), a
	ld	(rROMB0), a
	ret

	.org 0x0028			; RST 28 goes to entry A of the table after it
	pop	hl
	add	a, a
	add	a, l
	ld	l, a
	jr	nc, 1$
	inc	h
1$:	ld	a, (hl+)
	ld	h, (hl)
	ld	l, a
	jp	(hl)

	.org 0x0040			; the VBlank interrupt comes here
	jp	vblank

	.org 0x0050			; and the timer's here
	jp	timer

	.org 0x0100			; the processor starts here
	nop
	jp	start

; --- work RAM ---------------------------------------------------------------------------------------------------------------

	.area _RAM

bank:		.ds 1			; what the main program shows at 4000-7FFF
state:		.ds 1
state_timer:	.ds 1			; frames that the state has still to last
frame_done:	.ds 1			; the VBlank handler sets it
keys:		.ds 1
pressed:	.ds 1			; the keys that were not held in the frame before
level:		.ds 1
ships:		.ds 1
score:		.ds 3			; decimal digits, the lowest first
best:		.ds 3
random:		.ds 1
ship_y:		.ds 1
ship_x:		.ds 1
ship_safe:	.ds 1			; frames in which nothing hurts the ship
fire_wait:	.ds 1			; frames until the next shot
scroll:		.ds 1
column:		.ds 1			; how many columns of the level were made
column_place:	.ds 1			; where the last one is in the tile map
column_ready:	.ds 1			; it has to be drawn
column_tiles:	.ds ROWS
wave_at:	.ds 1			; the next wave's place in its page
objects_used:	.ds 1			; bytes of the copy of OAM
tune:		.ds 1
lead_at:	.ds 1			; the next note's place in the tune's page
lead_wait:	.ds 1
bass_at:	.ds 1
bass_wait:	.ds 1

	.area _PAGES_RAM

objects:	.ds 256			; the copy of OAM
shots:		.ds SHOTS * 2		; what moves is in a page of its own: only L and E count through it
bullets:	.ds BULLETS * 4
enemies:	.ds ENEMIES * ENEMY_SIZE
		.ds 256 - SHOTS * 2 - BULLETS * 4 - ENEMIES * ENEMY_SIZE
terrain:	.ds 512			; 32 columns of 16 tiles

	.area _HRAM

transfer:	.ds transfer_code_end - transfer_code

; --- start ------------------------------------------------------------------------------------------------------------------

	.area _CODE

start:
	di
	ld	sp, #STACK_TOP
	call	lcd_off
	ld	hl, #0xC000		; all of work RAM is cleared
1$:	xor	a
	ld	(hl+), a
	ld	a, h
	cp	#0xE0
	jr	c, 1$
	call	copy_transfer_code
	ld	hl, #_VRAM		; and all tiles and maps
	ld	bc, #0x2000
2$:	xor	a
	ld	(hl+), a
	dec	bc
	ld	a, b
	or	c
	jr	nz, 2$

	ld	a, #BANK_HOME
	rst	0x08
	ld	hl, #object_tiles
	ld	de, #_VRAM + 16
	ld	bc, #object_tiles_end - object_tiles
	call	copy_long
	ld	hl, #wall_tiles
	ld	de, #_VRAM + FIRST_WALL * 16
	ld	bc, #wall_tiles_end - wall_tiles
	call	copy_long
	ld	hl, #digit_shapes
	ld	de, #_VRAM + TILE_DIGITS * 16
	ld	b, #digit_shapes_end - digit_shapes
	call	copy_shapes
	ld	hl, #letter_shapes
	ld	de, #_VRAM + TILE_LETTERS * 16
	ld	b, #letter_shapes_end - letter_shapes
	call	copy_shapes

	ld	a, #SHADES
	ldh	(rBGP), a
	ldh	(rOBP0), a
	ld	a, #DARK_SHADES
	ldh	(rOBP1), a
	ld	a, #128			; the window has the lowest two rows
	ldh	(rWY), a
	ld	a, #7
	ldh	(rWX), a
	call	sound_on
	ld	a, #0xC0		; TIMA overflows after 64 counts: 64 times a second
	ldh	(rTMA), a
	ldh	(rTIMA), a
	ld	a, #TACF_START | TACF_4KHZ
	ldh	(rTAC), a
	call	enter_title
	xor	a
	ldh	(rIF), a
	ld	a, #IEF_VBLANK | IEF_TIMER
	ldh	(rIE), a
	ei

main_loop:
	call	wait_frame
	call	read_keys
	call	run_state
	jr	main_loop

run_state:
	ld	a, (state)
	cp	#STATES
	ret	nc
	rst	0x28
	.dw	in_title, in_intro, in_play, in_pause, in_lost, in_over, in_over

wait_frame:
	halt
	nop
	ld	a, (frame_done)
	and	a
	jr	z, wait_frame
	xor	a
	ld	(frame_done), a
	ret

sound_on:
	ld	a, #0x80
	ldh	(rNR52), a
	ld	a, #0x77
	ldh	(rNR50), a
	ld	a, #0xFF
	ldh	(rNR51), a
	ld	a, #0x80
	ldh	(rNR11), a
	ldh	(rNR21), a
	ret

; Copies BC bytes from HL to DE.
copy_long:
	ld	a, (hl+)
	ld	(de), a
	inc	de
	dec	bc
	ld	a, b
	or	c
	jr	nz, copy_long
	ret

; Copies B bytes of shapes from HL to DE, each to both bits of its pixels.
copy_shapes:
	ld	a, (hl+)
	ld	(de), a
	inc	de
	ld	(de), a
	inc	de
	dec	b
	jr	nz, copy_shapes
	ret

; Copies the code that transfers OAM to high RAM.
copy_transfer_code:
	ld	hl, #transfer_code
	ld	c, #<transfer
	ld	b, #transfer_code_end - transfer_code
1$:	ld	a, (hl+)
	ldh	(c), a
	inc	c
	dec	b
	jr	nz, 1$
	ret

transfer_code:
	ld	a, #>objects
	ldh	(rDMA), a
	ld	a, #TRANSFER_ROUNDS
1$:	dec	a
	jr	nz, 1$
	ret
transfer_code_end:

; --- keys -------------------------------------------------------------------------------------------------------------------

read_keys:
	ld	a, #P1F_GET_DPAD
	ldh	(rP1), a
	ldh	a, (rP1)
	ldh	a, (rP1)
	and	#0x0F
	swap	a
	ld	b, a
	ld	a, #P1F_GET_BTN
	ldh	(rP1), a
	ldh	a, (rP1)
	ldh	a, (rP1)
	ldh	a, (rP1)
	and	#0x0F
	or	b
	cpl
	ld	b, a
	ld	a, #P1F_GET_NONE
	ldh	(rP1), a
	ld	hl, #keys
	ld	a, (hl)
	cpl
	and	b
	ld	(pressed), a
	ld	(hl), b
	ret

; The next random number, in A.
next_random:
	ld	a, (random)
	ld	b, a
	add	a, a
	add	a, a
	add	a, b
	inc	a
	ld	(random), a
	ret

; --- screens ----------------------------------------------------------------------------------------------------------------

; Begins a screen: no interrupts, the LCD is off, the map blank, and no object is shown.
begin_screen:
	di
	ldh	a, (rLCDC)
	bit	7, a
	call	nz, lcd_off
	ld	b, #TILE_BLANK
	call	fill_map
	xor	a
	ld	(objects_used), a
	ldh	(rSCX), a
	ld	(scroll), a
	jp	hide_objects

; Shows it, in the mode A.
end_screen:
	ldh	(rLCDC), a
	xor	a
	ldh	(rIF), a
	ei
	ret

enter_title:
	call	begin_screen
	far_call	BANK_SCREENS, draw_title
	ld	a, #TUNE_TITLE
	call	start_tune
	ld	a, #STATE_TITLE
	ld	(state), a
	ld	a, #LCDC_SHOWN
	ldh	(rLCDC), a
	ret

in_title:
	ld	hl, #random
	inc	(hl)
	ld	a, (pressed)
	bit	PADB_START, a
	ret	z
	xor	a			; a new game
	ld	(level), a
	ld	hl, #score
	ld	(hl+), a
	ld	(hl+), a
	ld	(hl), a
	ld	a, #SHIPS
	ld	(ships), a

enter_intro:
	call	begin_screen
	far_call	BANK_SCREENS, draw_intro
	ld	a, #90
	ld	(state_timer), a
	ld	a, #STATE_INTRO
	ld	(state), a
	ld	a, #LCDC_SHOWN
	jp	end_screen

in_intro:
	ld	hl, #state_timer
	dec	(hl)
	ret	nz
	call	begin_screen
	call	begin_level
	call	draw_frame
	ld	a, #TUNE_LEVEL
	call	start_tune
	ld	a, #STATE_PLAY
	ld	(state), a
	ld	a, #LCDC_PLAYING
	jp	end_screen

in_pause:
	ld	a, (pressed)
	bit	PADB_START, a
	ret	z
	ld	a, #STATE_PLAY
	ld	(state), a
	ret

; The ship has burst: the level goes on without it for a while, and begins again.
in_lost:
	call	move_all
	ld	hl, #state_timer
	dec	(hl)
	ret	nz
	ld	hl, #ships
	dec	(hl)
	jr	nz, enter_intro

; The game has ended.
enter_over:
	call	begin_screen
	call	keep_best
	ld	a, #TUNE_OVER
	call	start_tune
	far_call	BANK_SCREENS, draw_over
	ld	a, #250
	ld	(state_timer), a
	ld	a, #STATE_OVER
	ld	(state), a
	ld	a, #LCDC_SHOWN
	jp	end_screen

in_over:
	ld	hl, #state_timer
	dec	(hl)
	jr	z, 1$
	ld	a, (pressed)
	bit	PADB_START, a
	ret	z
1$:	di
	call	enter_title
	xor	a
	ldh	(rIF), a
	ei
	ret

; Keeps the score, where it is the best one.
keep_best:
	ld	hl, #score
	ld	a, (best)
	sub	(hl)
	inc	hl
	ld	a, (best + 1)
	sbc	a, (hl)
	inc	hl
	ld	a, (best + 2)
	sbc	a, (hl)
	ret	nc
	ld	hl, #score
	ld	de, #best
	ld	b, #3
	jp	copy

; --- a level ----------------------------------------------------------------------------------------------------------------

; Clears what moves, and makes the first 32 columns.
begin_level:
	ld	hl, #shots
	ld	b, #SHOTS * 2 + BULLETS * 4 + ENEMIES * ENEMY_SIZE
	xor	a
1$:	ld	(hl+), a
	dec	b
	jr	nz, 1$
	ld	(column), a
	ld	(wave_at), a
	ld	(column_ready), a
	ld	(fire_wait), a
	ld	a, #31
	ld	(column_place), a
	ld	a, #40
	ld	(ship_x), a
	ld	a, #72
	ld	(ship_y), a
	ld	a, #60
	ld	(ship_safe), a
	ld	b, #32
2$:	push	bc
	call	make_column
	call	draw_column
	pop	bc
	dec	b
	jr	nz, 2$
	ret

; Makes the level's next column; after the last one the level is done, and the carry is set.
make_column:
	ld	a, (column)
	cp	#LEVEL_COLUMNS
	ccf
	ret	c
	ld	c, a
	inc	a
	ld	(column), a
	ld	a, (column_place)
	inc	a
	and	#31
	ld	(column_place), a

	ld	a, (bank)
	push	af
	ld	a, (level)
	add	a, #BANK_LEVELS
	rst	0x08
	ld	h, #>path		; the pattern's number
	ld	l, c
	ld	a, (hl)
	and	#0x0F
	swap	a			; 16 bytes for each pattern
	ld	l, a
	ld	h, #>patterns
	ld	de, #column_tiles
	ld	b, #ROWS
	call	copy
	pop	af
	rst	0x08

	ld	a, (column_place)	; the same to the ring
	call	terrain_column
	ld	d, h
	ld	e, l
	ld	hl, #column_tiles
	ld	b, #ROWS
	call	copy
	ld	a, #1
	ld	(column_ready), a
	and	a			; the carry is clear
	ret

; HL is the ring's column A.
terrain_column:
	and	#31
	swap	a
	ld	l, a
	and	#0x01
	add	a, #>terrain
	ld	h, a
	ld	a, l
	and	#0xF0
	ld	l, a
	ret

; Puts the column into the tile map, where there is a new one.
draw_column:
	ld	a, (column_ready)
	and	a
	ret	z
	xor	a
	ld	(column_ready), a
	ld	a, (column_place)
	ld	l, a
	ld	h, #>_SCRN0
	ld	de, #column_tiles
1$:	ld	a, (de)
	inc	e
	ld	(hl), a
	ld	a, l			; the row below
	add	a, #32
	ld	l, a
	jr	nc, 1$
	inc	h
	ld	a, h
	cp	#>_SCRN0 + 2		; 16 rows are two pages
	jr	c, 1$
	ret

; The waves that come with this column.
start_waves:
	ld	a, (bank)
	push	af
	ld	a, (level)
	add	a, #BANK_LEVELS
	rst	0x08
	ld	a, (wave_at)
	ld	l, a
	ld	h, #>waves
1$:	ld	a, (column)
	cp	(hl)
	jr	nz, 2$
	inc	l
	ld	b, (hl)			; the kind
	inc	l
	ld	c, (hl)			; Y
	inc	l
	ld	a, l
	ld	(wave_at), a
	push	hl
	call	new_enemy
	pop	hl
	jr	1$
2$:	pop	af
	rst	0x08
	ret

; An enemy of kind B at the height C, where there is room for one.
new_enemy:
	ld	hl, #enemies
	ld	e, #ENEMIES
1$:	ld	a, (hl)
	and	a
	jr	z, 2$
	ld	a, l
	add	a, #ENEMY_SIZE
	ld	l, a
	dec	e
	jr	nz, 1$
	ret
2$:	ld	(hl), b
	inc	l
	ld	(hl), c			; Y
	inc	l
	ld	(hl), #168		; X
	inc	l
	ld	(hl), #0		; its timer
	inc	l
	ld	(hl), c			; the height around which it goes
	ret

; The tile at Y = B and X = C of an object, in A.
terrain_at:
	ld	a, (scroll)
	add	a, c
	sub	#8
	srl	a
	srl	a
	srl	a
	call	terrain_column
	ld	a, b
	sub	#16
	srl	a
	srl	a
	srl	a
	and	#0x0F
	or	l
	ld	l, a
	ld	a, (hl)
	ret

; --- playing ----------------------------------------------------------------------------------------------------------------

in_play:
	ld	a, (pressed)
	bit	PADB_START, a
	jr	z, 1$
	ld	a, #STATE_PAUSE
	ld	(state), a
	ret
1$:	call	steer
	call	fire
	call	move_all
	call	check_ship
	jr	c, lose_ship
	ld	a, (column)
	cp	#LEVEL_COLUMNS
	ret	c
	ld	a, (scroll)		; the last column has come by
	and	a
	ret	nz
	ld	a, (level)
	inc	a
	cp	#LEVELS
	jp	nc, enter_over
	ld	(level), a
	jp	enter_intro

lose_ship:
	call	play_noise
	ld	a, (ship_y)
	ld	c, a
	ld	b, #KIND_BLAST
	call	new_enemy
	ld	a, #80
	ld	(state_timer), a
	ld	a, #STATE_LOST
	ld	(state), a
	ret

; Moves what is there, and makes the copy of OAM.
move_all:
	call	scroll_on
	xor	a
	ld	(objects_used), a
	ld	a, (state)
	cp	#STATE_PLAY
	call	z, show_ship
	call	move_shots
	call	move_bullets
	call	move_enemies
	call	hit_enemies
	jp	hide_objects

; The picture goes on; each eighth time with a new column.
scroll_on:
	ld	hl, #scroll
	inc	(hl)
	ld	a, (hl)
	and	#0x07
	ret	nz
	call	make_column
	ret	c
	jp	start_waves

; The ship goes where the keys say.
steer:
	ld	a, (keys)
	ld	b, a
	ld	hl, #ship_y
	bit	PADB_UP, b
	jr	z, 1$
	ld	a, (hl)
	cp	#TOP_EDGE
	jr	c, 1$
	dec	(hl)
1$:	bit	PADB_DOWN, b
	jr	z, 2$
	ld	a, (hl)
	cp	#BOTTOM_EDGE
	jr	nc, 2$
	inc	(hl)
2$:	ld	hl, #ship_x
	bit	PADB_LEFT, b
	jr	z, 3$
	ld	a, (hl)
	cp	#LEFT_EDGE
	jr	c, 3$
	dec	(hl)
3$:	bit	PADB_RIGHT, b
	ret	z
	ld	a, (hl)
	cp	#RIGHT_EDGE
	ret	nc
	inc	(hl)
	ret

; A shot, where A is held and one is not there.
fire:
	ld	hl, #fire_wait
	ld	a, (hl)
	and	a
	jr	z, 1$
	dec	(hl)
	ret
1$:	ld	a, (keys)
	bit	PADB_A, a
	ret	z
	ld	(hl), #10
	ld	hl, #shots
	ld	b, #SHOTS
2$:	ld	a, (hl)
	and	a
	jr	z, 3$
	inc	l
	inc	l
	dec	b
	jr	nz, 2$
	ret
3$:	ld	a, (ship_y)
	ld	(hl), a
	inc	l
	ld	a, (ship_x)
	add	a, #8
	ld	(hl), a
	ret

; Shots go to the right, until they leave the screen or meet a wall.
move_shots:
	ld	hl, #shots
	ld	d, #SHOTS
1$:	ld	a, (hl)
	and	a
	jr	z, 3$
	ld	b, a
	inc	l
	ld	a, (hl)
	add	a, #4
	ld	(hl), a
	dec	l
	ld	c, a
	cp	#168
	jr	nc, 2$
	push	hl
	call	terrain_at
	pop	hl
	and	#0xF0
	cp	#FIRST_WALL
	jr	z, 2$
	push	hl
	push	de
	ld	e, #TILE_SHOT
	call	add_object
	pop	de
	pop	hl
	jr	3$
2$:	ld	(hl), #0
3$:	inc	l
	inc	l
	dec	d
	jr	nz, 1$
	ret

; Bullets go their ways, until they leave the screen.
move_bullets:
	ld	hl, #bullets
	ld	b, #BULLETS
1$:	push	bc
	push	hl
	ld	a, (hl)
	and	a
	jr	z, 3$
	ld	d, h
	ld	e, l
	inc	l
	inc	l
	ld	b, (hl)			; what is added to Y
	inc	l
	ld	c, (hl)			; and to X
	add	a, b
	ld	(de), a
	ld	b, a
	inc	e
	ld	a, (de)
	add	a, c
	ld	(de), a
	ld	c, a
	dec	e
	cp	#168
	jr	nc, 2$
	ld	a, b
	cp	#16
	jr	c, 2$
	cp	#144
	jr	nc, 2$
	ld	e, #TILE_BULLET
	call	add_object
	jr	3$
2$:	xor	a
	ld	(de), a
3$:	pop	hl
	ld	a, l
	add	a, #4
	ld	l, a
	pop	bc
	dec	b
	jr	nz, 1$
	ret

; A bullet from Y = B and X = C towards the ship, where one is free.
new_bullet:
	ld	hl, #bullets
	ld	e, #BULLETS
1$:	ld	a, (hl)
	and	a
	jr	z, 2$
	inc	l
	inc	l
	inc	l
	inc	l
	dec	e
	jr	nz, 1$
	ret
2$:	ld	a, b
	ld	(hl), a
	inc	l
	ld	a, c
	ld	(hl), a
	inc	l
	ld	a, (ship_y)
	cp	b
	ld	a, #1
	jr	nc, 3$
	ld	a, #0xFF
3$:	ld	(hl), a
	inc	l
	ld	(hl), #0xFE
	ret

; Sets the carry if the ship has hit a wall, an enemy or a bullet.
check_ship:
	ld	hl, #ship_safe
	ld	a, (hl)
	and	a
	jr	z, 1$
	dec	(hl)
	and	a
	ret
1$:	ld	a, (ship_y)
	ld	b, a
	ld	a, (ship_x)
	ld	c, a
	push	bc
	call	terrain_at
	pop	bc
	and	#0xF0
	cp	#FIRST_WALL
	scf
	ret	z
	ld	hl, #enemies
	ld	d, #ENEMIES
2$:	ld	a, (hl)
	cp	#KIND_BLAST
	jr	z, 3$
	and	a
	call	nz, is_near
	ret	c
3$:	ld	a, l
	add	a, #ENEMY_SIZE
	ld	l, a
	dec	d
	jr	nz, 2$
	ld	hl, #bullets - 1	; a bullet's Y has no kind before it
	ld	d, #BULLETS
4$:	inc	l
	ld	a, (hl)
	dec	l
	and	a
	call	nz, is_near
	ret	c
	inc	l
	inc	l
	inc	l
	inc	l
	dec	d
	jr	nz, 4$
	and	a
	ret

; Sets the carry if the object at HL, its Y and X after it, is near to Y = B and X = C. HL stays.
is_near:
	push	hl
	inc	l
	ld	a, (hl)
	inc	l
	sub	b
	add	a, #6
	cp	#12
	jr	nc, 1$
	ld	a, (hl)
	sub	c
	add	a, #7
	cp	#14
1$:	pop	hl
	ret

; Adds E points, in decimal digits.
add_points:
	push	hl
	ld	hl, #score
	ld	a, (hl)
	add	a, e
	daa
	ld	(hl+), a
	ld	a, (hl)
	adc	a, #0
	daa
	ld	(hl+), a
	ld	a, (hl)
	adc	a, #0
	daa
	ld	(hl), a
	pop	hl
	ret

; --- objects ----------------------------------------------------------------------------------------------------------------

show_ship:
	ld	a, (ship_safe)
	and	#0x04			; it flickers as long as it is safe
	ret	nz
	ld	a, (ship_y)
	ld	b, a
	ld	a, (ship_x)
	ld	c, a
	ld	e, #TILE_SHIP
	call	add_object
	ld	a, c
	sub	#8
	ld	c, a
	ld	e, #TILE_SHIP + 1

; One more object with tile E at Y = B and X = C.
add_object:
	ld	a, (objects_used)
	cp	#OAM_COUNT * 4
	ret	nc
	ld	l, a
	ld	h, #>objects
	ld	a, b
	ld	(hl+), a
	ld	a, c
	ld	(hl+), a
	ld	a, e
	ld	(hl+), a
	xor	a
	ld	(hl+), a
	ld	a, l
	ld	(objects_used), a
	ret

; Hides the objects after the last one that is used.
hide_objects:
	ld	a, (objects_used)
	ld	l, a
	ld	h, #>objects
1$:	ld	a, l
	cp	#OAM_COUNT * 4
	ret	nc
	ld	(hl), #0
	inc	l
	inc	l
	inc	l
	inc	l
	jr	1$

; --- interrupts -------------------------------------------------------------------------------------------------------------

vblank:
	push	af
	push	bc
	push	de
	push	hl
	call	transfer
	call	draw_column
	ld	a, (scroll)
	ldh	(rSCX), a
	call	draw_status
	ld	a, #1
	ld	(frame_done), a
	pop	hl
	pop	de
	pop	bc
	pop	af
	reti

; Whatever bank is shown, the tune's is shown here, and the main program's when it is left.
timer:
	push	af
	push	bc
	push	de
	push	hl
	ld	a, #BANK_MUSIC
	ld	(rROMB0), a
	call	play_tune
	ld	a, (bank)
	ld	(rROMB0), a
	pop	hl
	pop	de
	pop	bc
	pop	af
	reti

; The window's frame: a line, and what its numbers are.
draw_frame:
	ld	hl, #_SCRN1
	ld	b, #20
1$:	ld	(hl), #FIRST_WALL
	inc	hl
	dec	b
	jr	nz, 1$
	ld	hl, #_SCRN1 + 32
	ld	b, #20
2$:	ld	(hl), #TILE_BLANK
	inc	hl
	dec	b
	jr	nz, 2$
	ld	a, #TILE_SHIP
	ld	(_SCRN1 + 32 + 16), a
	ret

; The score and the ships that are left.
draw_status:
	ld	hl, #score + 2
	ld	de, #_SCRN1 + 32 + 1
	call	draw_number
	ld	a, (ships)
	add	a, #TILE_DIGITS
	ld	(_SCRN1 + 32 + 18), a
	ret

; Draws the six digits that end at HL to DE.
draw_number:
	ld	b, #3
1$:	ld	a, (hl)
	swap	a
	call	2$
	ld	a, (hl-)
	call	2$
	dec	b
	jr	nz, 1$
	ret
2$:	and	#0x0F
	add	a, #TILE_DIGITS
	ld	(de), a
	inc	de
	ret

; --- sound ------------------------------------------------------------------------------------------------------------------

; Tune A from its beginning.
start_tune:
	ld	(tune), a
	xor	a
	ld	(lead_at), a
	ld	a, #0x80		; the second voice is in the page's other half
	ld	(bass_at), a
	ld	a, #1
	ld	(lead_wait), a
	ld	(bass_wait), a
	ret

play_noise:
	ld	a, #0x00
	ldh	(rNR41), a
	ld	a, #0xF3
	ldh	(rNR42), a
	ld	a, #0x57
	ldh	(rNR43), a
	ld	a, #0x80
	ldh	(rNR44), a
	ret

	.include "picture.inc"

; --- bank 1: what is always shown, but for a while: enemies -------------------------------------------------------------

	.area _BANK_1

; Moves each enemy by the code of its kind, and shows it.
move_enemies:
	ld	hl, #enemies
	ld	b, #ENEMIES
1$:	push	bc
	push	hl
	ld	a, (hl)
	and	a
	jr	z, 2$
	ld	d, h
	ld	e, l
	call	move_enemy
2$:	pop	hl
	ld	a, l
	add	a, #ENEMY_SIZE
	ld	l, a
	pop	bc
	dec	b
	jr	nz, 1$
	ret

; Moves the enemy at DE, of kind A.
move_enemy:
	cp	#KINDS
	ret	nc
	rst	0x28
	.dw	move_none, move_drone, move_waver, move_hunter, move_mine, move_gunner, move_blast

move_none:
	ret

; Straight on, two pixels in a frame.
move_drone:
	ld	c, #2
	call	go_left
	ret	c
	jr	show_enemy

; Up and down by a table.
move_waver:
	ld	c, #1
	call	go_left
	ret	c
	call	enemy_timer
	ld	a, (hl)
	inc	a
	ld	(hl), a
	inc	l
	srl	a
	and	#0x1F
	ld	c, (hl)			; the height around which it goes
	ld	hl, #sway
	add	a, l
	ld	l, a
	jr	nc, 1$
	inc	h
1$:	ld	a, (hl)
	add	a, c
	inc	e
	ld	(de), a
	dec	e
	jr	show_enemy

; Towards the ship's height, each other frame.
move_hunter:
	ld	c, #1
	call	go_left
	ret	c
	call	enemy_timer
	inc	(hl)
	bit	0, (hl)
	jr	z, show_enemy
	inc	e
	ld	a, (de)
	ld	c, a
	ld	a, (ship_y)
	cp	c
	jr	z, 2$
	jr	c, 1$
	inc	c
	inc	c
1$:	dec	c
	ld	a, c
	ld	(de), a
2$:	dec	e
	jr	show_enemy

; As fast as the picture.
move_mine:
	ld	c, #1
	call	go_left
	ret	c
	jr	show_enemy

; It fires each 64 frames.
move_gunner:
	ld	c, #1
	call	go_left
	ret	c
	call	enemy_timer
	inc	(hl)
	ld	a, (hl)
	and	#0x3F
	jr	nz, show_enemy
	push	de
	inc	e
	ld	a, (de)
	ld	b, a
	inc	e
	ld	a, (de)
	ld	c, a
	call	new_bullet
	pop	de

; Shows the enemy at DE.
show_enemy:
	ld	a, (de)
	add	a, #TILE_ENEMIES - 1
show_tile:
	ld	h, d
	ld	l, e
	inc	l
	ld	b, (hl)
	inc	l
	ld	c, (hl)
	ld	e, a
	jp	add_object

; Three pictures, then it is gone.
move_blast:
	call	enemy_timer
	inc	(hl)
	ld	a, (hl)
	srl	a
	srl	a
	srl	a
	cp	#3
	jr	nc, remove
	add	a, #TILE_BLAST
	jr	show_tile

; The enemy at DE goes C pixels to the left; where it leaves the screen, it is removed, and the carry is set.
go_left:
	inc	e
	inc	e
	ld	a, (de)
	sub	c
	ld	(de), a
	dec	e
	dec	e
	cp	#4
	jr	c, remove
	and	a
	ret

; HL is the timer of the enemy at DE.
enemy_timer:
	ld	h, d
	ld	a, e
	add	a, #ENEMY_TIMER
	ld	l, a
	ret

remove:
	xor	a
	ld	(de), a
	scf
	ret

; What is added to a waver's height.
sway:
	.db	0x00, 0x02, 0x05, 0x07, 0x08, 0x0A, 0x0B, 0x0C, 0x0C, 0x0C, 0x0B, 0x0A, 0x08, 0x07, 0x05, 0x02
	.db	0x00, 0xFE, 0xFB, 0xF9, 0xF8, 0xF6, 0xF5, 0xF4, 0xF4, 0xF4, 0xF5, 0xF6, 0xF8, 0xF9, 0xFB, 0xFE

; What the points of each kind are, in decimal digits.
points:
	.db	0x00, 0x10, 0x20, 0x30, 0x05, 0x50, 0x00

; Looks for each shot whether it meets an enemy.
hit_enemies:
	ld	de, #shots
	ld	c, #SHOTS
1$:	ld	a, (de)
	and	a
	call	nz, hit_by_shot
	inc	e
	inc	e
	dec	c
	jr	nz, 1$
	ret

; The shot at DE: the first enemy that it meets bursts.
hit_by_shot:
	ld	hl, #enemies
	ld	b, #ENEMIES
1$:	push	hl
	ld	a, (hl)
	inc	l
	and	a
	jr	z, 2$
	cp	#KIND_BLAST
	jr	nc, 2$
	ld	a, (de)
	sub	(hl)
	add	a, #7
	cp	#14
	jr	nc, 2$
	inc	l
	inc	e
	ld	a, (de)
	dec	e
	sub	(hl)
	add	a, #8
	cp	#16
	jr	nc, 2$
	pop	hl
	xor	a
	ld	(de), a
	push	de
	push	bc
	call	burst
	pop	bc
	pop	de
	ret
2$:	pop	hl
	ld	a, l
	add	a, #ENEMY_SIZE
	ld	l, a
	dec	b
	jr	nz, 1$
	ret

; The enemy at HL bursts.
burst:
	ld	a, (hl)
	ld	(hl), #KIND_BLAST
	inc	l
	inc	l
	inc	l
	ld	(hl), #0
	ld	hl, #points
	add	a, l
	ld	l, a
	jr	nc, 1$
	inc	h
1$:	ld	e, (hl)
	call	add_points
	jp	play_noise

; Tiles of objects and walls, two bits for each pixel.
object_tiles:
	.db	0x00, 0x00, 0xC0, 0xE0, 0xF0, 0xF8, 0xCC, 0xFE, 0xC3, 0xFF, 0xFE, 0xFE, 0xC0, 0xE0, 0x00, 0x00	; ship
	.db	0x00, 0x00, 0x07, 0x07, 0x3F, 0x3F, 0x7F, 0x3F, 0xFF, 0x1F, 0x3F, 0x3F, 0x07, 0x07, 0x00, 0x00
	.db	0x00, 0x00, 0x00, 0x00, 0x00, 0x00, 0xFF, 0xFF, 0x00, 0xFF, 0x00, 0x00, 0x00, 0x00, 0x00, 0x00	; shot
	.db	0x00, 0x00, 0x00, 0x00, 0x38, 0x38, 0x44, 0x7C, 0x44, 0x7C, 0x38, 0x38, 0x00, 0x00, 0x00, 0x00	; bullet
	.db	0x00, 0x00, 0x3C, 0x3C, 0x42, 0x7E, 0xBD, 0xFF, 0xBD, 0xFF, 0x42, 0x7E, 0x3C, 0x3C, 0x00, 0x00	; drone
	.db	0x81, 0x81, 0xC3, 0xC3, 0x66, 0x7E, 0x24, 0x3C, 0x24, 0x3C, 0x66, 0x7E, 0xC3, 0xC3, 0x81, 0x81	; waver
	.db	0x0F, 0x0F, 0x31, 0x3F, 0x47, 0x7F, 0x88, 0xF8, 0x88, 0xF8, 0x47, 0x7F, 0x31, 0x3F, 0x0F, 0x0F	; hunter
	.db	0x99, 0x99, 0x66, 0x7E, 0x42, 0x7E, 0x99, 0xFF, 0x99, 0xFF, 0x42, 0x7E, 0x66, 0x7E, 0x99, 0x99	; mine
	.db	0x3F, 0x3F, 0x41, 0x7F, 0x9F, 0xFF, 0x98, 0xF8, 0x98, 0xF8, 0x9F, 0xFF, 0x41, 0x7F, 0x3F, 0x3F	; gunner
	.db	0x00, 0x00, 0x00, 0x00, 0x20, 0x04, 0x18, 0x18, 0x18, 0x18, 0x04, 0x20, 0x00, 0x00, 0x00, 0x00	; blast
	.db	0x00, 0x00, 0x02, 0x40, 0x24, 0x3C, 0x00, 0x18, 0x00, 0x18, 0x24, 0x3C, 0x40, 0x02, 0x00, 0x00
	.db	0x10, 0x82, 0x00, 0x01, 0x80, 0x18, 0x00, 0x24, 0x00, 0x24, 0x01, 0x18, 0x00, 0x80, 0x08, 0x41
object_tiles_end:

wall_tiles:
	.db	0xFF, 0xFF, 0x81, 0xFF, 0xBD, 0xC3, 0xBD, 0xC3, 0xBD, 0xC3, 0xBD, 0xC3, 0x81, 0xFF, 0xFF, 0xFF	; of the first level
	.db	0x00, 0xFF, 0x7E, 0xFF, 0x42, 0xFF, 0x5A, 0xE7, 0x5A, 0xE7, 0x42, 0xFF, 0x7E, 0xFF, 0x00, 0xFF
	.db	0xFF, 0xFF, 0xC3, 0xFF, 0x99, 0xE7, 0x3C, 0xC3, 0x42, 0x81, 0x81, 0x00, 0x00, 0x00, 0x00, 0x00
	.db	0x00, 0x00, 0x00, 0x00, 0x81, 0x00, 0x42, 0x81, 0x3C, 0xC3, 0x99, 0xE7, 0xC3, 0xFF, 0xFF, 0xFF
	.db	0xFF, 0xFF, 0xFF, 0x81, 0xC3, 0xBD, 0xC3, 0xBD, 0xC3, 0xBD, 0xC3, 0xBD, 0xFF, 0x81, 0xFF, 0xFF	; of the second
	.db	0xFF, 0x00, 0xFF, 0x7E, 0xFF, 0x42, 0xE7, 0x5A, 0xE7, 0x5A, 0xFF, 0x42, 0xFF, 0x7E, 0xFF, 0x00
	.db	0xFF, 0xFF, 0xFF, 0xC3, 0xE7, 0x99, 0xC3, 0x3C, 0x81, 0x42, 0x00, 0x81, 0x00, 0x00, 0x00, 0x00
	.db	0x00, 0x00, 0x00, 0x00, 0x00, 0x81, 0x81, 0x42, 0xC3, 0x3C, 0xE7, 0x99, 0xFF, 0xC3, 0xFF, 0xFF
	.db	0x00, 0xFF, 0x7E, 0xFF, 0x7E, 0xFF, 0x7E, 0xFF, 0x7E, 0xFF, 0x7E, 0xFF, 0x7E, 0xFF, 0x00, 0xFF	; of the third
	.db	0xFF, 0xFF, 0x81, 0xFF, 0xBD, 0xFF, 0xBD, 0xFF, 0xBD, 0xFF, 0xBD, 0xFF, 0x81, 0xFF, 0xFF, 0xFF
	.db	0x00, 0xFF, 0x3C, 0xFF, 0x7E, 0xFF, 0xFF, 0xFF, 0xC3, 0xC3, 0x81, 0x81, 0x00, 0x00, 0x00, 0x00
	.db	0x00, 0x00, 0x00, 0x00, 0x81, 0x81, 0xC3, 0xC3, 0xFF, 0xFF, 0x7E, 0xFF, 0x3C, 0xFF, 0x00, 0xFF
	.db	0x00, 0xFF, 0x7E, 0xFF, 0x7E, 0xC3, 0x7E, 0xC3, 0x7E, 0xC3, 0x7E, 0xC3, 0x7E, 0xFF, 0x00, 0xFF
	.db	0xFF, 0xFF, 0x81, 0xFF, 0xBD, 0xFF, 0xBD, 0xE7, 0xBD, 0xE7, 0xBD, 0xFF, 0x81, 0xFF, 0xFF, 0xFF
	.db	0x00, 0xFF, 0x3C, 0xFF, 0x7E, 0xE7, 0xFF, 0xC3, 0xC3, 0x81, 0x81, 0x00, 0x00, 0x00, 0x00, 0x00
	.db	0x00, 0x00, 0x00, 0x00, 0x81, 0x00, 0xC3, 0x81, 0xFF, 0xC3, 0x7E, 0xE7, 0x3C, 0xFF, 0x00, 0xFF
wall_tiles_end:

; Digits and letters, one bit for each pixel.
digit_shapes:
	.db	0x3C, 0x66, 0x6E, 0x76, 0x66, 0x66, 0x3C, 0x00
	.db	0x18, 0x38, 0x18, 0x18, 0x18, 0x18, 0x7E, 0x00
	.db	0x3C, 0x66, 0x06, 0x0C, 0x30, 0x60, 0x7E, 0x00
	.db	0x3C, 0x66, 0x06, 0x1C, 0x06, 0x66, 0x3C, 0x00
	.db	0x06, 0x0E, 0x1E, 0x66, 0x7F, 0x06, 0x06, 0x00
	.db	0x7E, 0x60, 0x7C, 0x06, 0x06, 0x66, 0x3C, 0x00
	.db	0x3C, 0x66, 0x60, 0x7C, 0x66, 0x66, 0x3C, 0x00
	.db	0x7E, 0x66, 0x0C, 0x18, 0x18, 0x18, 0x18, 0x00
	.db	0x3C, 0x66, 0x66, 0x3C, 0x66, 0x66, 0x3C, 0x00
	.db	0x3C, 0x66, 0x66, 0x3E, 0x06, 0x66, 0x3C, 0x00
digit_shapes_end:

letter_shapes:
	.db	0x38, 0x44, 0x44, 0x7C, 0x44, 0x44, 0x44, 0x00		; A
	.db	0x78, 0x44, 0x44, 0x78, 0x44, 0x44, 0x78, 0x00		; B
	.db	0x38, 0x44, 0x40, 0x40, 0x40, 0x44, 0x38, 0x00		; C
	.db	0x78, 0x44, 0x44, 0x44, 0x44, 0x44, 0x78, 0x00		; D
	.db	0x7C, 0x40, 0x40, 0x78, 0x40, 0x40, 0x7C, 0x00		; E
	.db	0x7C, 0x40, 0x40, 0x78, 0x40, 0x40, 0x40, 0x00		; F
	.db	0x38, 0x44, 0x40, 0x5C, 0x44, 0x44, 0x3C, 0x00		; G
	.db	0x44, 0x44, 0x44, 0x7C, 0x44, 0x44, 0x44, 0x00		; H
	.db	0x38, 0x10, 0x10, 0x10, 0x10, 0x10, 0x38, 0x00		; I
	.db	0x1C, 0x08, 0x08, 0x08, 0x08, 0x48, 0x30, 0x00		; J
	.db	0x44, 0x48, 0x50, 0x60, 0x50, 0x48, 0x44, 0x00		; K
	.db	0x40, 0x40, 0x40, 0x40, 0x40, 0x40, 0x7C, 0x00		; L
	.db	0x44, 0x6C, 0x54, 0x54, 0x44, 0x44, 0x44, 0x00		; M
	.db	0x44, 0x64, 0x54, 0x4C, 0x44, 0x44, 0x44, 0x00		; N
	.db	0x38, 0x44, 0x44, 0x44, 0x44, 0x44, 0x38, 0x00		; O
	.db	0x78, 0x44, 0x44, 0x78, 0x40, 0x40, 0x40, 0x00		; P
	.db	0x38, 0x44, 0x44, 0x44, 0x54, 0x48, 0x34, 0x00		; Q
	.db	0x78, 0x44, 0x44, 0x78, 0x50, 0x48, 0x44, 0x00		; R
	.db	0x3C, 0x40, 0x40, 0x38, 0x04, 0x04, 0x78, 0x00		; S
	.db	0x7C, 0x10, 0x10, 0x10, 0x10, 0x10, 0x10, 0x00		; T
	.db	0x44, 0x44, 0x44, 0x44, 0x44, 0x44, 0x38, 0x00		; U
	.db	0x44, 0x44, 0x44, 0x44, 0x44, 0x28, 0x10, 0x00		; V
	.db	0x44, 0x44, 0x44, 0x54, 0x54, 0x6C, 0x44, 0x00		; W
	.db	0x44, 0x44, 0x28, 0x10, 0x28, 0x44, 0x44, 0x00		; X
	.db	0x44, 0x44, 0x28, 0x10, 0x10, 0x10, 0x10, 0x00		; Y
	.db	0x7C, 0x04, 0x08, 0x10, 0x20, 0x40, 0x7C, 0x00		; Z
letter_shapes_end:

; --- bank 2: screens ----------------------------------------------------------------------------------------------------

	.area _BANK_2

draw_title:
	ld	a, #TEXT_NAME
	call	print_text
	ld	a, #TEXT_START
	call	print_text
	ld	a, #TEXT_BEST
	call	print_text
	ld	hl, #best + 2
	ld	de, #_SCRN0 + 14 * 32 + 10
	call	draw_number
	ld	hl, #_SCRN0		; walls above and below
	call	draw_wall
	ld	hl, #_SCRN0 + 17 * 32

draw_wall:
	ld	b, #20
	ld	a, #FIRST_WALL
1$:	ld	(hl+), a
	xor	#0x01
	dec	b
	jr	nz, 1$
	ret

draw_intro:
	ld	a, #TEXT_LEVEL
	call	print_text
	ld	a, (level)
	add	a, #TILE_DIGITS + 1
	ld	(_SCRN0 + 8 * 32 + 13), a
	ret

; How the game has ended, and the score.
draw_over:
	ld	a, (ships)
	and	a
	jr	nz, 1$
	ld	a, #TEXT_OVER
	call	print_text
	jr	2$
1$:	ld	a, #TEXT_WON
	call	print_text
	ld	a, #TEXT_THANKS
	call	print_text
2$:	ld	hl, #score + 2
	ld	de, #_SCRN0 + 10 * 32 + 7
	jp	draw_number

; Prints text A: its place, its characters, and 0.
print_text:
	cp	#TEXTS
	ret	nc
	add	a, a
	ld	e, a
	ld	d, #0
	ld	hl, #texts
	add	hl, de
	ld	a, (hl+)
	ld	h, (hl)
	ld	l, a
	ld	a, (hl+)
	ld	e, a
	ld	a, (hl+)
	ld	d, a
1$:	ld	a, (hl+)
	and	a
	ret	z
	ld	(de), a
	inc	de
	jr	1$

texts:
	.dw	text_name, text_start, text_best, text_level, text_over, text_won, text_thanks

text_name:
	.dw	_SCRN0 + 4 * 32 + 7
	.asciz	"CANYON"
text_start:
	.dw	_SCRN0 + 10 * 32 + 4
	.asciz	"PRESS  START"
text_best:
	.dw	_SCRN0 + 14 * 32 + 4
	.asciz	"BEST"
text_level:
	.dw	_SCRN0 + 8 * 32 + 6
	.asciz	"LEVEL"
text_over:
	.dw	_SCRN0 + 6 * 32 + 5
	.asciz	"GAME  OVER"
text_won:
	.dw	_SCRN0 + 6 * 32 + 6
	.asciz	"THE  END"
text_thanks:
	.dw	_SCRN0 + 14 * 32 + 2
	.asciz	"YOU ARE A  PILOT"
; --- bank 3: the first level --------------------------------------------------------------------------------------------

	.area _BANK_3

; Sixteen patterns of a column's tiles, from above, in a page of their own.
patterns:
	.db	0x00, 0x00, 0x00, 0x00, 0x00, 0x00, 0x00, 0x00, 0x00, 0x00, 0x00, 0x00, 0x00, 0x00, 0x13, 0x10
	.db	0x10, 0x12, 0x00, 0x00, 0x00, 0x00, 0x00, 0x00, 0x00, 0x00, 0x00, 0x00, 0x00, 0x00, 0x13, 0x10
	.db	0x10, 0x11, 0x12, 0x00, 0x00, 0x00, 0x00, 0x00, 0x00, 0x00, 0x00, 0x00, 0x00, 0x00, 0x13, 0x10
	.db	0x10, 0x11, 0x10, 0x12, 0x00, 0x00, 0x00, 0x00, 0x00, 0x00, 0x00, 0x00, 0x00, 0x13, 0x11, 0x10
	.db	0x10, 0x11, 0x10, 0x11, 0x12, 0x00, 0x00, 0x00, 0x00, 0x00, 0x00, 0x00, 0x00, 0x13, 0x11, 0x10
	.db	0x10, 0x11, 0x10, 0x11, 0x10, 0x12, 0x00, 0x00, 0x00, 0x00, 0x00, 0x00, 0x00, 0x00, 0x13, 0x10
	.db	0x10, 0x11, 0x10, 0x12, 0x00, 0x00, 0x00, 0x00, 0x00, 0x00, 0x00, 0x13, 0x11, 0x10, 0x11, 0x10
	.db	0x10, 0x12, 0x00, 0x00, 0x00, 0x00, 0x00, 0x00, 0x00, 0x00, 0x13, 0x10, 0x11, 0x10, 0x11, 0x10
	.db	0x00, 0x00, 0x00, 0x00, 0x00, 0x00, 0x00, 0x00, 0x00, 0x00, 0x00, 0x00, 0x13, 0x10, 0x11, 0x10
	.db	0x10, 0x11, 0x12, 0x00, 0x00, 0x00, 0x00, 0x00, 0x00, 0x00, 0x00, 0x00, 0x00, 0x00, 0x00, 0x00
	.db	0x10, 0x12, 0x00, 0x00, 0x00, 0x00, 0x00, 0x00, 0x00, 0x00, 0x00, 0x00, 0x00, 0x13, 0x11, 0x10
	.db	0x10, 0x11, 0x10, 0x11, 0x12, 0x00, 0x00, 0x00, 0x00, 0x00, 0x00, 0x00, 0x00, 0x13, 0x11, 0x10
	.db	0x10, 0x11, 0x10, 0x11, 0x10, 0x12, 0x00, 0x00, 0x10, 0x00, 0x00, 0x00, 0x13, 0x10, 0x11, 0x10
	.db	0x10, 0x11, 0x12, 0x00, 0x00, 0x00, 0x00, 0x00, 0x00, 0x00, 0x00, 0x13, 0x11, 0x10, 0x11, 0x10
	.db	0x00, 0x00, 0x00, 0x00, 0x00, 0x00, 0x00, 0x00, 0x00, 0x00, 0x00, 0x00, 0x00, 0x00, 0x13, 0x10
	.db	0x10, 0x12, 0x00, 0x00, 0x00, 0x00, 0x00, 0x00, 0x00, 0x00, 0x00, 0x00, 0x00, 0x00, 0x00, 0x00

; The pattern of each column, in the next page.
path:
	.db	15, 14, 15, 14, 15, 14, 15, 14, 15, 14, 15, 14, 8, 9, 9, 0
	.db	0, 8, 11, 13, 6, 6, 10, 8, 0, 0, 12, 12, 12, 13, 9, 9
	.db	9, 9, 9, 12, 2, 2, 2, 4, 4, 10, 10, 13, 5, 6, 5, 5
	.db	5, 5, 5, 5, 13, 8, 8, 11, 11, 11, 11, 1, 13, 13, 5, 5
	.db	2, 6, 6, 6, 9, 9, 9, 4, 0, 1, 8, 3, 3, 4, 0, 0
	.db	5, 5, 5, 7, 7, 13, 8, 12, 6, 6, 6, 6, 4, 8, 12, 9
	.ds	256 - LEVEL_COLUMNS

; Waves in the next page: the column with which each comes, its kind, and its height. Nothing comes with column 255.
waves:
	.db	34, KIND_DRONE, 72
	.db	35, KIND_DRONE, 88
	.db	37, KIND_WAVER, 64
	.db	39, KIND_HUNTER, 88
	.db	41, KIND_HUNTER, 72
	.db	42, KIND_HUNTER, 48
	.db	43, KIND_WAVER, 64
	.db	45, KIND_WAVER, 80
	.db	47, KIND_DRONE, 64
	.db	48, KIND_WAVER, 96
	.db	50, KIND_HUNTER, 64
	.db	52, KIND_WAVER, 48
	.db	53, KIND_HUNTER, 88
	.db	54, KIND_WAVER, 80
	.db	55, KIND_HUNTER, 96
	.db	57, KIND_DRONE, 64
	.db	58, KIND_HUNTER, 72
	.db	59, KIND_DRONE, 80
	.db	61, KIND_WAVER, 88
	.db	62, KIND_WAVER, 96
	.db	63, KIND_DRONE, 64
	.db	64, KIND_HUNTER, 72
	.db	66, KIND_DRONE, 96
	.db	67, KIND_DRONE, 80
	.db	68, KIND_WAVER, 96
	.db	69, KIND_WAVER, 64
	.db	70, KIND_HUNTER, 64
	.db	71, KIND_WAVER, 64
	.db	73, KIND_WAVER, 64
	.db	75, KIND_WAVER, 72
	.db	77, KIND_DRONE, 72
	.db	78, KIND_DRONE, 48
	.db	80, KIND_HUNTER, 80
	.db	82, KIND_HUNTER, 88
	.db	83, KIND_DRONE, 88
	.db	85, KIND_HUNTER, 88
	.db	87, KIND_HUNTER, 64
	.db	88, KIND_DRONE, 96
	.db	90, KIND_DRONE, 96
	.db	91, KIND_DRONE, 48
	.db	92, KIND_WAVER, 80
	.db	93, KIND_DRONE, 72
	.db	255

; --- bank 4: the second level -------------------------------------------------------------------------------------------

	.area _BANK_4

patterns_4:
	.db	0x14, 0x16, 0x00, 0x00, 0x00, 0x00, 0x00, 0x00, 0x00, 0x00, 0x00, 0x00, 0x00, 0x00, 0x00, 0x00
	.db	0x14, 0x16, 0x00, 0x00, 0x00, 0x00, 0x00, 0x00, 0x00, 0x00, 0x00, 0x00, 0x00, 0x00, 0x17, 0x14
	.db	0x14, 0x16, 0x00, 0x00, 0x00, 0x00, 0x00, 0x00, 0x00, 0x00, 0x00, 0x00, 0x00, 0x17, 0x15, 0x14
	.db	0x14, 0x15, 0x16, 0x00, 0x00, 0x00, 0x00, 0x00, 0x00, 0x00, 0x00, 0x00, 0x17, 0x14, 0x15, 0x14
	.db	0x14, 0x15, 0x16, 0x00, 0x00, 0x00, 0x00, 0x00, 0x00, 0x00, 0x00, 0x17, 0x15, 0x14, 0x15, 0x14
	.db	0x14, 0x16, 0x00, 0x00, 0x00, 0x00, 0x00, 0x00, 0x00, 0x00, 0x17, 0x14, 0x15, 0x14, 0x15, 0x14
	.db	0x14, 0x15, 0x14, 0x15, 0x16, 0x00, 0x00, 0x00, 0x00, 0x00, 0x00, 0x00, 0x17, 0x14, 0x15, 0x14
	.db	0x14, 0x15, 0x14, 0x15, 0x14, 0x16, 0x00, 0x00, 0x00, 0x00, 0x00, 0x00, 0x00, 0x00, 0x17, 0x14
	.db	0x14, 0x15, 0x14, 0x16, 0x00, 0x00, 0x00, 0x00, 0x00, 0x00, 0x00, 0x00, 0x00, 0x00, 0x00, 0x00
	.db	0x00, 0x00, 0x00, 0x00, 0x00, 0x00, 0x00, 0x00, 0x00, 0x00, 0x00, 0x00, 0x00, 0x17, 0x15, 0x14
	.db	0x14, 0x15, 0x16, 0x00, 0x00, 0x00, 0x00, 0x00, 0x00, 0x00, 0x00, 0x00, 0x00, 0x00, 0x17, 0x14
	.db	0x14, 0x15, 0x16, 0x00, 0x00, 0x00, 0x00, 0x00, 0x00, 0x00, 0x00, 0x17, 0x15, 0x14, 0x15, 0x14
	.db	0x14, 0x15, 0x14, 0x16, 0x00, 0x00, 0x00, 0x00, 0x14, 0x00, 0x17, 0x14, 0x15, 0x14, 0x15, 0x14
	.db	0x14, 0x15, 0x14, 0x15, 0x16, 0x00, 0x00, 0x00, 0x00, 0x00, 0x00, 0x00, 0x00, 0x17, 0x15, 0x14
	.db	0x14, 0x16, 0x00, 0x00, 0x00, 0x00, 0x00, 0x00, 0x00, 0x00, 0x00, 0x00, 0x00, 0x00, 0x00, 0x00
	.db	0x00, 0x00, 0x00, 0x00, 0x00, 0x00, 0x00, 0x00, 0x00, 0x00, 0x00, 0x00, 0x00, 0x00, 0x17, 0x14

path_4:
	.db	15, 14, 15, 14, 15, 14, 15, 14, 15, 14, 15, 14, 2, 0, 8, 9
	.db	8, 1, 1, 8, 13, 3, 3, 0, 6, 3, 13, 6, 1, 8, 8, 9
	.db	3, 8, 8, 9, 10, 12, 9, 9, 3, 3, 3, 9, 7, 7, 7, 1
	.db	6, 5, 7, 10, 8, 13, 11, 7, 7, 1, 1, 10, 11, 11, 11, 11
	.db	11, 6, 6, 7, 9, 0, 4, 3, 13, 2, 8, 2, 2, 2, 6, 6
	.db	6, 3, 2, 10, 7, 7, 4, 6, 9, 2, 2, 9, 9, 9, 13, 13
	.ds	256 - LEVEL_COLUMNS

waves_4:
	.db	34, KIND_MINE, 72
	.db	36, KIND_DRONE, 72
	.db	38, KIND_DRONE, 56
	.db	39, KIND_WAVER, 72
	.db	40, KIND_DRONE, 64
	.db	41, KIND_DRONE, 48
	.db	42, KIND_DRONE, 64
	.db	43, KIND_DRONE, 96
	.db	44, KIND_MINE, 56
	.db	46, KIND_HUNTER, 80
	.db	48, KIND_MINE, 48
	.db	49, KIND_MINE, 72
	.db	51, KIND_MINE, 64
	.db	52, KIND_WAVER, 48
	.db	54, KIND_HUNTER, 72
	.db	55, KIND_DRONE, 56
	.db	57, KIND_WAVER, 88
	.db	58, KIND_HUNTER, 88
	.db	59, KIND_HUNTER, 80
	.db	61, KIND_WAVER, 64
	.db	62, KIND_HUNTER, 88
	.db	63, KIND_WAVER, 96
	.db	64, KIND_MINE, 88
	.db	65, KIND_WAVER, 80
	.db	67, KIND_HUNTER, 88
	.db	68, KIND_DRONE, 96
	.db	70, KIND_MINE, 64
	.db	71, KIND_HUNTER, 72
	.db	73, KIND_HUNTER, 48
	.db	74, KIND_DRONE, 56
	.db	76, KIND_WAVER, 64
	.db	77, KIND_MINE, 80
	.db	78, KIND_MINE, 88
	.db	80, KIND_DRONE, 96
	.db	81, KIND_MINE, 96
	.db	82, KIND_MINE, 56
	.db	84, KIND_HUNTER, 48
	.db	86, KIND_MINE, 72
	.db	87, KIND_WAVER, 56
	.db	88, KIND_DRONE, 56
	.db	90, KIND_WAVER, 80
	.db	92, KIND_HUNTER, 56
	.db	93, KIND_DRONE, 48
	.db	255

; --- bank 5: music -------------------------------------------------------------------------------------------------------

	.area _BANK_5

; Each tune has a page: from its beginning the notes of the first voice, from its middle those of the second, each with its
; length. The pitch REST is silent, AGAIN begins the voice again.
REST		= 24
PITCHES		= 24
AGAIN		= 0xFF

tunes:
; the title's
	.db	7, 12, 7, 12, 5, 12, 2, 12, 5, 24, 4, 12, 7, 12, 5, 12
	.db	4, 12, 2, 12, 0, 12, 0, 12, 0, 24, 0, 24, REST, 12, 2, 12
	.db	REST, 12, 0, 24, 0, 24, 2, 12, 4, 12, 2, 24, 0, 12, 2, 12
	.db	AGAIN
	.ds	79
	.db	5, 24, 7, 24, 5, 24, 0, 24, 5, 24, 0, 24, 4, 24, 4, 24
	.db	0, 24, 4, 24, 5, 24, 7, 24
	.db	AGAIN
	.ds	103
; the levels'
	.db	7, 16, 9, 8, 9, 8, 11, 8, 9, 16, REST, 8, REST, 16, 9, 8
	.db	11, 8, 9, 8, 12, 8, REST, 16, 12, 16, 12, 8, 16, 8, REST, 16
	.db	9, 8, 7, 16, REST, 16, 11, 8, 12, 8, 14, 16, REST, 8, 16, 8
	.db	19, 8, REST, 8, 19, 16, 17, 8, 19, 8, 19, 16, 19, 8, 19, 8
	.db	19, 16, 19, 8, REST, 8, 17, 8, 19, 8, 19, 8, 19, 16, 19, 16
	.db	AGAIN
	.ds	47
	.db	7, 16, 5, 16, 7, 16, 4, 16, 5, 16, 7, 16, 7, 16, 4, 16
	.db	4, 16, 4, 16, 7, 16, 5, 16, 7, 16, 0, 16, 5, 16, 4, 16
	.db	5, 16, 7, 16, 7, 16, 0, 16
	.db	AGAIN
	.ds	87
; the end's
	.db	5, 20, 5, 20, 4, 20, REST, 20, 4, 20, REST, 20, 4, 20, 7, 40
	.db	7, 20, 5, 20, 2, 20, 5, 40, 5, 20, 5, 20, 7, 20, 7, 20
	.db	AGAIN
	.ds	95
	.db	4, 40, 5, 40, 5, 40, 7, 40, 5, 40, 4, 40, 4, 40, 5, 40
	.db	AGAIN
	.ds	111

; The frequencies of two octaves from C on, with the bit that begins a note.
pitches:
	.dw	0x860B, 0x8627, 0x8642, 0x865B, 0x8672, 0x8689, 0x869E, 0x86B2
	.dw	0x86C4, 0x86D6, 0x86E7, 0x86F7, 0x8706, 0x8714, 0x8721, 0x872D
	.dw	0x8739, 0x8744, 0x874F, 0x8759, 0x8762, 0x876B, 0x8773, 0x877B

; Plays what is next of both voices.
play_tune:
	ld	a, (tune)
	cp	#TUNES
	ret	nc
	add	a, #>tunes
	ld	h, a
	ld	a, (lead_wait)
	dec	a
	ld	(lead_wait), a
	jr	nz, 3$
	ld	a, (lead_at)
	ld	l, a
1$:	ld	a, (hl)
	cp	#AGAIN
	jr	nz, 2$
	ld	l, #0
	jr	1$
2$:	inc	l
	ld	b, a
	ld	a, (hl)
	ld	(lead_wait), a
	inc	l
	ld	a, l
	ld	(lead_at), a
	push	hl
	call	play_lead
	pop	hl
3$:	ld	a, (bass_wait)
	dec	a
	ld	(bass_wait), a
	ret	nz
	ld	a, (bass_at)
	ld	l, a
4$:	ld	a, (hl)
	cp	#AGAIN
	jr	nz, 5$
	ld	l, #0x80
	jr	4$
5$:	inc	l
	ld	b, a
	ld	a, (hl)
	ld	(bass_wait), a
	inc	l
	ld	a, l
	ld	(bass_at), a

	ld	a, b
	cp	#PITCHES
	jr	nc, 6$
	call	frequency
	ld	a, #0x84
	ldh	(rNR22), a
	ld	a, e
	ldh	(rNR23), a
	ld	a, d
	ldh	(rNR24), a
	ret
6$:	xor	a
	ldh	(rNR22), a
	ret

; Plays pitch B with the first voice.
play_lead:
	ld	a, b
	cp	#PITCHES
	jr	nc, 1$
	call	frequency
	ld	a, #0xA3
	ldh	(rNR12), a
	ld	a, e
	ldh	(rNR13), a
	ld	a, d
	ldh	(rNR14), a
	ret
1$:	xor	a
	ldh	(rNR12), a
	ret

; DE is the frequency of pitch A.
frequency:
	add	a, a
	ld	e, a
	ld	d, #0
	ld	hl, #pitches
	add	hl, de
	ld	a, (hl+)
	ld	d, (hl)
	ld	e, a
	ret
