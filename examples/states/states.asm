; states: how fast do you press A? A game of five states, chosen by a jump table.
;
; Start begins a round: the screen is grey for a while. When it turns dark, press A: the number shows the frames that it took.
; Who presses too early sees stripes. The state is a number in RAM, and a table has the address of each state's code: the number
; is compared with the table's length before the table is read, so no other address can be jumped to.

	.module states
	.include "hardware.inc"

TITLE		= 0			; the states, in the table's order
READY		= 1
GO		= 2
RESULT		= 3
EARLY		= 4
STATES		= 5

STRIPES		= 11			; a tile of colours 1 and 0
NUMBER_PLACE	= _SCRN0 + 8 * 32 + 9	; in the tile map

; --- fixed addresses ------------------------------------------------------------------------------------------------------

	.area _FIXED (ABS)

	.org 0x0040			; the VBlank interrupt comes here
	jp vblank

	.org 0x0100			; the processor starts here
	nop
	jp start

; --- work RAM ---------------------------------------------------------------------------------------------------------------

	.area _RAM

state:		.ds 1
wait:		.ds 1			; frames until the screen turns dark
time:		.ds 1			; frames since then, two decimal digits
keys_before:	.ds 1
pressed:	.ds 1			; the buttons that are pressed in this frame
frame_done:	.ds 1

; --- start ------------------------------------------------------------------------------------------------------------------

	.area _CODE

start:
	ld	sp, #STACK_TOP
	call	lcd_off
	call	copy_digits
	ld	hl, #stripes
	ld	de, #_VRAM + STRIPES * 16
	ld	b, #16
	call	copy
	ld	b, #STRIPES
	call	fill_map
	xor	a
	ld	(state), a
	ld	(wait), a
	ld	(time), a
	ld	(keys_before), a
	ld	(pressed), a
	ld	(frame_done), a
	ldh	(rSCX), a
	ldh	(rSCY), a
	ld	a, #LCDCF_ON | LCDCF_BG8000 | LCDCF_BGON
	ldh	(rLCDC), a
	xor	a
	ldh	(rIF), a
	ld	a, #IEF_VBLANK
	ldh	(rIE), a
	ei

main_loop:
	halt
	nop
	ld	a, (frame_done)
	and	a
	jr	z, main_loop
	xor	a
	ld	(frame_done), a
	call	read_buttons
	call	run_state
	jr	main_loop

; Goes to the code of the state. Behind the last state the first one comes again.
run_state:
	ld	a, (state)
	cp	#STATES
	jr	nc, 1$
	ld	hl, #state_table
	add	a, a			; two bytes for each state
	ld	e, a
	ld	d, #0
	add	hl, de
	ld	a, (hl+)
	ld	h, (hl)
	ld	l, a
	jp	(hl)			; the state's code returns to the main loop
1$:	xor	a
	ld	(state), a
	ret

state_table:
	.dw	title, ready, go, result, early

; --- the states -------------------------------------------------------------------------------------------------------------

title:
	ld	a, (pressed)
	bit	PADB_START, a
	ret	z
	ldh	a, (rDIV)		; nobody knows when Start is pressed, so this is a random number
	and	#0x7F
	add	a, #40
	ld	(wait), a
	xor	a
	ld	(time), a
	jr	next_state

ready:
	ld	a, (pressed)
	bit	PADB_A, a
	jr	nz, 1$
	ld	hl, #wait
	dec	(hl)
	ret	nz
	jr	next_state
1$:	ld	a, #EARLY
	ld	(state), a
	ret

go:
	ld	a, (pressed)
	bit	PADB_A, a
	jr	nz, next_state
	ld	a, (time)
	add	a, #1
	daa
	ret	c			; 99 frames are the most
	ld	(time), a
	ret

result:
	ld	a, (pressed)
	bit	PADB_START, a
	ret	z
	xor	a			; TITLE
	ld	(state), a
	ret

early:
	ld	a, (pressed)
	bit	PADB_START, a
	ret	z

next_state:
	ld	hl, #state
	inc	(hl)
	ret

; --- the VBlank handler -----------------------------------------------------------------------------------------------------

vblank:
	push	af
	push	hl
	ld	a, (state)		; the shades of the state
	add	a, #<shades
	ld	l, a			; only L counts on, so HL stays in the table's page
	ld	h, #>shades
	ld	a, (hl)
	ldh	(rBGP), a
	ld	hl, #NUMBER_PLACE
	ld	a, (time)
	swap	a
	and	#0x0F
	ld	(hl+), a
	ld	a, (time)
	and	#0x0F
	ld	(hl), a
	ld	a, #1
	ld	(frame_done), a
	pop	hl
	pop	af
	reti

; Stores in `pressed` the buttons that are pressed now and were not before.
read_buttons:
	ld	a, #P1F_GET_BTN
	ldh	(rP1), a
	ldh	a, (rP1)		; the lines take some cycles to settle
	ldh	a, (rP1)
	cpl
	and	#0x0F
	ld	c, a
	ld	a, (keys_before)
	cpl
	and	c
	ld	(pressed), a
	ld	a, c
	ld	(keys_before), a
	ret

stripes:
	.db	0xAA, 0, 0xAA, 0, 0xAA, 0, 0xAA, 0, 0xAA, 0, 0xAA, 0, 0xAA, 0, 0xAA, 0

	.include "picture.inc"
	.include "digits.inc"

	.area _PAGES

; Of colours 3 to 0, for each state; the stripes have the colours 1 and 0.
shades:
	.db	0b11000000, 0b11010101, 0b00111111, 0b11000000, 0b11001100
