; The start-up of the games in C: the interrupt's address, the stack, RAM as C wants it, and then main; and how C calls
; a function by a pointer.

	.module start
	.globl _main, _vblank
	.globl s__DATA, l__DATA, s__INITIALIZER, s__INITIALIZED, l__INITIALIZER

STACK_TOP	= 0xE000

	.area _FIXED (ABS)

	.org 0x0040			; the VBlank interrupt comes here
	jp	_vblank

	.org 0x0100			; the processor starts here; the build puts the header at 0104 to 014F
	nop
	jp	start

; the areas in the order in which they lie
	.area _CODE
	.area _HOME
	.area _INITIALIZER
	.area _GSINIT
	.area _GSFINAL
	.area _DATA
	.area _INITIALIZED
	.area _BSEG
	.area _BSS
	.area _HEAP

	.area _CODE
start:
	di
	ld	sp, #STACK_TOP

	ld	bc, #l__DATA		; what has no value in the source is 0
	ld	hl, #s__DATA
clear:
	ld	a, b
	or	a, c
	jr	Z, cleared
	ld	(hl), #0
	inc	hl
	dec	bc
	jr	clear
cleared:

	ld	bc, #l__INITIALIZER	; what has one gets it
	ld	hl, #s__INITIALIZER
	ld	de, #s__INITIALIZED
copy:
	ld	a, b
	or	a, c
	jr	Z, copied
	ld	a, (hl+)
	ld	(de), a
	inc	de
	dec	bc
	jr	copy
copied:
	call	_main
ended:
	halt				; main doesn't come back
	nop
	jr	ended

___sdcc_call_hl::
	jp	(hl)
