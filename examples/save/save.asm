; save: a counter that outlives the power switch, in the cartridge's RAM (MBC3 with a battery).
;
; The upper number counts how often the game was started, the lower one is changed by A (one more) and B (one less), and Start
; saves it. The record's RAM is behind a gate that is closed at power-up: it is opened for each access and closed after it, so
; that a crash or a falling voltage finds it closed.

	.module save
	.include "hardware.inc"

RECORD_MARK	= 0x47			; says that a record was written here before
FLASH_FRAMES	= 6			; how long the screen is dark when the record was saved
SHADES		= 0b11100100		; colour 0 is white, colour 3 is black
DARK_SHADES	= 0b00011011
STARTS_PLACE	= _SCRN0 + 6 * 32 + 9	; of the numbers in the tile map
COUNT_PLACE	= _SCRN0 + 10 * 32 + 9

; --- fixed addresses ------------------------------------------------------------------------------------------------------

	.area _FIXED (ABS)

	.org 0x0040			; the VBlank interrupt comes here
	jp vblank

	.org 0x0100			; the processor starts here
	nop
	jp start

; --- cartridge RAM, behind the gate -----------------------------------------------------------------------------------------

	.area _SAVE

record_mark:	.ds 1
record_starts:	.ds 1
record_count:	.ds 1
record_check:	.ds 1			; the sum of the three bytes before

; --- work RAM ---------------------------------------------------------------------------------------------------------------

	.area _RAM

starts:		.ds 1			; two decimal digits, as all numbers here
count:		.ds 1
keys_before:	.ds 1
flash:		.ds 1			; frames for which the screen stays dark
frame_done:	.ds 1

; --- start ------------------------------------------------------------------------------------------------------------------

	.area _CODE

start:
	ld	sp, #STACK_TOP
	call	lcd_off
	call	copy_digits
	ld	b, #BLANK
	call	fill_map
	xor	a
	ld	(keys_before), a
	ld	(flash), a
	ld	(frame_done), a
	ldh	(rSCX), a
	ldh	(rSCY), a

	call	load_record
	ld	a, (starts)
	add	a, #1
	daa
	ld	(starts), a
	call	save_record

	ld	a, #LCDCF_ON | LCDCF_BG8000 | LCDCF_BGON
	ldh	(rLCDC), a
	xor	a
	ldh	(rIF), a
	ld	a, #IEF_VBLANK
	ldh	(rIE), a
	ei

main_loop:
	halt
	nop
	ld	a, (frame_done)
	and	a
	jr	z, main_loop
	xor	a
	ld	(frame_done), a
	call	pressed_keys
	bit	PADB_A, b
	call	nz, one_more
	bit	PADB_B, b
	call	nz, one_less
	bit	PADB_START, b
	call	nz, save_record
	jr	main_loop

one_more:
	ld	a, (count)
	add	a, #1
	daa
	ld	(count), a
	ret

one_less:
	ld	a, (count)
	sub	#1
	daa
	ld	(count), a
	ret

; --- the record -------------------------------------------------------------------------------------------------------------

; Opens cartridge RAM, its bank 0.
open_record:
	ld	a, #CART_SRAM_ENABLE
	ld	(rRAMG), a
	xor	a
	ld	(rRAMB), a
	ret

close_record:
	ld	a, #CART_SRAM_DISABLE
	ld	(rRAMG), a
	ret

; Takes both numbers from the record; zeros where none was written, or where its sum is wrong.
load_record:
	call	open_record
	ld	a, (record_mark)
	cp	#RECORD_MARK
	jr	nz, 1$
	call	sum_record
	ld	a, (record_check)
	cp	b
	jr	nz, 1$
	ld	a, (record_starts)
	ld	(starts), a
	ld	a, (record_count)
	ld	(count), a
	jr	close_record
1$:	xor	a
	ld	(starts), a
	ld	(count), a
	jr	close_record

; Writes both numbers to the record.
save_record:
	call	open_record
	ld	a, #RECORD_MARK
	ld	(record_mark), a
	ld	a, (starts)
	ld	(record_starts), a
	ld	a, (count)
	ld	(record_count), a
	call	sum_record
	ld	a, b
	ld	(record_check), a
	call	close_record
	ld	a, #FLASH_FRAMES
	ld	(flash), a
	ret

; B = the sum of the record's first three bytes. The gate must be open.
sum_record:
	ld	hl, #record_mark
	ld	a, (hl+)
	add	a, (hl)
	inc	l
	add	a, (hl)
	ld	b, a
	ret

; B = the buttons that are pressed now and were not before.
pressed_keys:
	ld	a, #P1F_GET_BTN
	ldh	(rP1), a
	ldh	a, (rP1)		; the lines take some cycles to settle
	ldh	a, (rP1)
	cpl
	and	#0x0F
	ld	c, a
	ld	a, (keys_before)
	cpl
	and	c
	ld	b, a
	ld	a, c
	ld	(keys_before), a
	ret

; --- the VBlank handler -----------------------------------------------------------------------------------------------------

vblank:
	push	af
	push	bc
	push	hl
	ld	a, (starts)
	ld	hl, #STARTS_PLACE
	call	show_number
	ld	a, (count)
	ld	hl, #COUNT_PLACE
	call	show_number
	ld	b, #SHADES
	ld	a, (flash)
	and	a
	jr	z, 1$
	dec	a
	ld	(flash), a
	ld	b, #DARK_SHADES
1$:	ld	a, b
	ldh	(rBGP), a
	ld	a, #1
	ld	(frame_done), a
	pop	hl
	pop	bc
	pop	af
	reti

; Shows the two digits of A at HL.
show_number:
	ld	b, a
	swap	a
	and	#0x0F
	ld	(hl+), a
	ld	a, b
	and	#0x0F
	ld	(hl), a
	ret

	.include "picture.inc"
	.include "digits.inc"
