; Handlers for VBlank, STAT, timer and serial port, with variables in high RAM and a ring of a page that goes round by itself.

	.module four_handlers
	.include "hardware.inc"
rSTAT		= 0xFF41	; the picture's mode in bits 0 and 1
rLYC		= 0xFF45	; the line that STAT's interrupt waits for
rSB		= 0xFF01	; the serial port's byte

	.area _FIXED (ABS)
	.org 0x0040
	jp vblank
	.org 0x0048
	jp stat
	.org 0x0050
	jp timer
	.org 0x0058
	jp serial
	.org 0x0060
	reti
	.org 0x0100
	nop
	jp start

	.area _HRAM
frame:	.ds 1
ticks:	.ds 2
head:	.ds 1

	.area _PAGES_RAM
ring:	.ds 256

	.area _CODE
start:
	di
	ld	sp, #0xE000
	xor	a
	ldh	(frame), a
	ldh	(ticks), a
	ldh	(ticks + 1), a
	ldh	(head), a
	ldh	(rIF), a
	ld	a, #5
	ldh	(rTAC), a
	ld	a, #0x40
	ldh	(rSTAT), a
	ld	a, #70
	ldh	(rLYC), a
	ld	a, #0x1F
	ldh	(rIE), a
	ei
loop:
1$:	halt
	nop
	ldh	a, (frame)
	or	a
	jr	z, 1$
	xor	a
	ldh	(frame), a
	call	work
	jr	loop

work:
	ldh	a, (head)
	ld	l, a
	ld	h, #>ring
	ld	a, (hl)
	ldh	(rSCX), a
	ret

vblank:
	push	af
	ld	a, #1
	ldh	(frame), a
	pop	af
	reti

stat:
	push	af
	push	hl
	ld	hl, #rLYC
	ld	a, (hl)
	xor	#0x40
	ld	(hl), a
	pop	hl
	pop	af
	reti

timer:
	push	hl
	push	af
	ld	hl, #ticks
	inc	(hl)
	jr	nz, 1$
	inc	l
	inc	(hl)
1$:	pop	af
	pop	hl
	reti

serial:
	push	af
	push	hl
	ldh	a, (head)
	ld	l, a
	inc	a
	ldh	(head), a
	ld	h, #>ring
	ldh	a, (rSB)
	ld	(hl), a
	pop	hl
	pop	af
	reti
