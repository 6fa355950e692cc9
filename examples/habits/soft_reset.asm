; A, B, START and SELECT together begin the game anew, from wherever the keys are read: a jump to the start, out of a procedure,
; and a new LD SP there. SP may be set in the main program alone. Return with a flag, and let the main loop jump.

	.module soft_reset
	.include "hardware.inc"
	.area _FIXED (ABS)
	.org 0x0100
	nop
	jp start

	.area _CODE
start:
	ld	sp, #0xE000
loop:
	call	read_keys
	jr	loop

; Reads the buttons; all four of them together are a reset.
read_keys:
	ld	a, #0x10
	ldh	(rP1), a
	ldh	a, (rP1)
	and	#0x0F
	jr	z, start
	ret
