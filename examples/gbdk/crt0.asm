; The start of every game here, in GBDK's conventions: vectors, lists of interrupt handlers in RAM, shadow OAM, and banked calls.

	.module crt0
	.globl	_main
	.globl	s__INITIALIZER, s__INITIALIZED, l__INITIALIZER

rROMB0	= 0x2000			; MBC5: low byte of the ROM bank
rIF	= 0xFF0F
rSTAT	= 0xFF41
rLCDC	= 0xFF40
rLY	= 0xFF44
rDMA	= 0xFF46
rBGP	= 0xFF47
rOBP0	= 0xFF48
rOBP1	= 0xFF49
rIE	= 0xFFFF

HANDLERS = 3				; of an interrupt; after them comes a 0

	.area	_VECTORS (ABS)
	.org	0x0020
___sdcc_call_hl::			; RST 20: a call to HL
	jp	(hl)
	.org	0x0040			; VBlank
	push	hl
	ld	hl, #handlers_vbl
	jp	interrupt
	.org	0x0050			; timer
	push	hl
	ld	hl, #handlers_tim
	jp	interrupt
	.org	0x0100			; entry point; makebin fills in the header
	nop
	jp	start

; The order of the areas in ROM and in RAM.
	.area	_CODE
	.area	_HOME
	.area	_INITIALIZER
	.area	_GSINIT
	.area	_GSFINAL
	.area	_DATA
	.area	_INITIALIZED
	.area	_BSS
	.area	_HRAM (ABS)
	.org	0xFF90
__current_bank::			; the bank that 4000-7FFF shows
	.ds	1
_vbl_done::				; set by VBlank
	.ds	1
_sys_time::				; frames since the start
	.ds	2
; The lists of handlers: two bytes each, ended by 0. No array's index reaches them here.
handlers_vbl::
	.ds	2 * HANDLERS + 2
handlers_tim::
	.ds	2 * HANDLERS + 2

	.area	_SHADOW_OAM (ABS)
	.org	0xC000
_shadow_OAM::
	.ds	160

	.area	_CODE
start::
	di
	ld	sp, #0xE000		; the stack grows down from the end of WRAM
	xor	a
	ld	hl, #0xC000		; all RAM is 0
1$:	ld	(hl+), a
	bit	5, h
	jr	Z, 1$
	ld	hl, #0xFFFE		; HRAM too
	ld	b, #0x7F
2$:	ld	(hl-), a
	dec	b
	jr	NZ, 2$
	call	_display_off
	xor	a
	ldh	(rLCDC), a		; background's tiles at 9000, its map at 9800
	ld	hl, #0xFE9F		; no object is shown
	ld	b, #0xA0
3$:	ld	(hl-), a
	dec	b
	jr	NZ, 3$
	ld	hl, #dma_code		; the OAM routine goes to HRAM
	ld	bc, #(dma_code_end - dma_code) * 256 + 0x80
4$:	ld	a, (hl+)
	ldh	(c), a
	inc	c
	dec	b
	jr	NZ, 4$
	ld	bc, #l__INITIALIZER	; variables with a value get a copy of it
	ld	hl, #s__INITIALIZER
	ld	de, #s__INITIALIZED
5$:	ld	a, b
	or	a, c
	jr	Z, 6$
	ld	a, (hl+)
	ld	(de), a
	inc	de
	dec	bc
	jr	5$
6$:	ld	a, #1
	ldh	(__current_bank), a
	ld	(rROMB0), a
	ld	a, #0xE4
	ldh	(rBGP), a
	ldh	(rOBP0), a
	ld	a, #0xD2
	ldh	(rOBP1), a
	ld	hl, #handlers_vbl	; the first handler, and no other one. Each byte is stored here by its
					; address: certify doesn't know it from a loop that cleared it among others
	ld	a, #<std_vbl
	ld	(hl+), a
	ld	a, #>std_vbl
	ld	(hl+), a
	xor	a
	.rept	2 * HANDLERS
	ld	(hl+), a
	.endm
	ld	hl, #handlers_tim
	.rept	2 * HANDLERS + 2
	ld	(hl+), a
	.endm
	ldh	(rIF), a
	inc	a			; VBlank only
	ldh	(rIE), a
	ei
	call	_main
7$:	halt				; main is over
	nop
	jr	7$

; Runs in HRAM at FF80: starts OAM DMA from C000 and waits 160 M-cycles.
refresh_OAM = 0xFF80
dma_code:
	ld	a, #0xC0
	ldh	(rDMA), a
	ld	a, #40
1$:	dec	a
	jr	NZ, 1$
	ret
dma_code_end:

; Calls the handlers of a list from HL on.
interrupt::
	push	af
	push	bc
	push	de
1$:	ld	a, (hl+)
	or	a, (hl)
	jr	Z, 2$
	push	hl
	ld	a, (hl-)
	ld	l, (hl)
	ld	h, a
	call	call_handler
	pop	hl
	inc	hl
	jr	1$
2$:	pop	de
	pop	bc
3$:	ldh	a, (rSTAT)		; who was stopped may be about to write to VRAM
	and	a, #2
	jr	NZ, 3$
	pop	af
	pop	hl
	reti

; Not RST 20, which banked calls go through: certify knows the stack of one of them there, not of both.
call_handler::
	jp	(hl)

; The handler that every game has: the clock, and the objects.
std_vbl::
	ld	hl, #_sys_time
	inc	(hl)
	jr	NZ, 1$
	inc	hl
	inc	(hl)
1$:	call	refresh_OAM
	ld	a, #1
	ldh	(_vbl_done), a
	ret

; add_VBL(DE): puts a handler at the list's end. With interrupts off.
_add_VBL::
	ld	hl, #handlers_vbl
	jr	add_handler
_add_TIM::
	ld	hl, #handlers_tim
add_handler::
1$:	ld	a, (hl+)
	or	a, (hl)
	jr	Z, 2$
	inc	hl
	jr	1$
2$:	ld	(hl), d
	dec	hl
	ld	(hl), e
	ret

; wait_vbl_done(): waits until VBlank has come.
_wait_vbl_done::
	xor	a
	ldh	(_vbl_done), a
1$:	halt
	nop
	ldh	a, (_vbl_done)
	or	a, a
	jr	Z, 1$
	ret

; display_off(): in VBlank, since hardware wants it so.
_display_off::
	ldh	a, (rLCDC)
	add	a, a
	ret	NC
1$:	ldh	a, (rLY)
	cp	a, #0x92
	jr	NC, 1$
2$:	ldh	a, (rLY)
	cp	a, #0x91
	jr	C, 2$
	ldh	a, (rLCDC)
	and	a, #0x7F
	ldh	(rLCDC), a
	ret

; Banked calls: E is the bank, HL the function. The variable is written before the register: an interrupt in
; between restores the bank by the variable.
___sdcc_bcall_ehl::
	ldh	a, (__current_bank)
	push	af
	ld	a, e
	ldh	(__current_bank), a
	ld	(rROMB0), a
	rst	0x20
	ld	e, a			; the function's result
	pop	af
	ldh	(__current_bank), a
	ld	(rROMB0), a
	ld	a, e
	ret
