; Start-up code, interrupt vectors, the HRAM routine for OAM DMA, and the trampoline for banked calls.
; It replaces SDCC's own crt0: the Makefile calls the linker itself.

	.module crt0
	.globl	_main, _vblank_isr, _current_bank
	.globl	s__DATA, l__DATA, s__INITIALIZER, s__INITIALIZED, l__INITIALIZER

rROMB0	= 0x2000			; MBC5: low byte of the ROM bank
rDMA	= 0xFF46

	.area	_VECTORS (ABS)
	.org	0x0040			; VBlank
	jp	_vblank_isr
	.org	0x0100			; entry point; makebin fills in the header
	nop
	jp	start

; The order of the areas in ROM and in RAM.
	.area	_CODE
	.area	_HOME
	.area	_INITIALIZER
	.area	_GSINIT
	.area	_GSFINAL
	.area	_DATA
	.area	_INITIALIZED
	.area	_BSS

	.area	_CODE
start:
	di
	ld	sp, #0xE000		; the stack grows down from the end of WRAM

	ld	bc, #l__DATA		; variables without a value start as 0
	ld	hl, #s__DATA
1$:	ld	a, b
	or	a, c
	jr	Z, 2$
	ld	(hl), #0
	inc	hl
	dec	bc
	jr	1$
2$:
	ld	bc, #l__INITIALIZER	; variables with a value get a copy of it
	ld	hl, #s__INITIALIZER
	ld	de, #s__INITIALIZED
3$:	ld	a, b
	or	a, c
	jr	Z, 4$
	ld	a, (hl+)
	ld	(de), a
	inc	de
	dec	bc
	jr	3$
4$:
	ld	hl, #dma_code		; the DMA routine goes to HRAM
	ld	bc, #(dma_code_end - dma_code) * 256 + 0x80
5$:	ld	a, (hl+)
	ldh	(c), a
	inc	c
	dec	b
	jr	NZ, 5$
	call	_main
6$:	halt				; main never returns
	nop
	jr	6$

; Runs in HRAM at FF80: starts OAM DMA from C000 and waits 160 M-cycles.
_oam_dma == 0xFF80
dma_code:
	ld	a, #0xC0
	ldh	(rDMA), a
	ld	a, #40
7$:	dec	a
	jr	NZ, 7$
	ret
dma_code_end:

; Calls through function pointers.
___sdcc_call_hl::
	jp	(hl)

; Banked calls: E is the bank, HL the function. The variable is written before the register: an interrupt in
; between restores the bank by the variable.
___sdcc_bcall_ehl::
	ld	a, (_current_bank)
	push	af
	ld	a, e
	ld	(_current_bank), a
	ld	(rROMB0), a
	call	___sdcc_call_hl
	ld	e, a			; keep the function's result
	pop	af
	ld	(_current_bank), a
	ld	(rROMB0), a
	ld	a, e
	ret
