; Two jump tables are read by one RST, which adds twice A to HL, and the jump is another RST. The first is followed in its callers,
; where the table's address is known.

	.module two_jump_tables
	.include "hardware.inc"
	.area _FIXED (ABS)
	.org 0x0010
jump_hl:
	jp	(hl)
	.org 0x0018
add_twice:
	add	a, a
	add	a, l
	ld	l, a
	ret	nc
	inc	h
	ret
	.org 0x0100
	nop
	jp start

	.area _RAM
state:	.ds 1
foe:	.ds 1

	.area _CODE
start:
	ld	sp, #0xE000
	xor	a
	ld	(state), a
	ld	(foe), a
loop:
	ld	a, (state)
	cp	#3
	jr	nc, start
	ld	hl, #states
	rst	0x18
	ld	a, (hl+)
	ld	h, (hl)
	ld	l, a
	rst	0x10
	call	move_foe
	jr	loop

states:	.dw	title, play, over
title:
	ld	a, #1
	ld	(state), a
	ret
play:
	ld	a, #2
	ld	(state), a
	ret
over:
	xor	a
	ld	(state), a
	ret

; One step of the foe, by what it does.
move_foe:
	ld	a, (foe)
	cp	#4
	ret	nc
	ld	hl, #moves
	rst	0x18
	ld	a, (hl+)
	ld	h, (hl)
	ld	l, a
	rst	0x10
	ret

moves:	.dw	sleep, wander, hunt, flee
sleep:
	ldh	a, (rDIV)
	and	#3
	ld	(foe), a
	ret
wander:
	ld	a, #2
	ld	(foe), a
	ret
hunt:
	ld	a, #3
	ld	(foe), a
	ret
flee:
	xor	a
	ld	(foe), a
	ret
