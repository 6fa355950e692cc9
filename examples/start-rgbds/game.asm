; A ball that the direction keys move, with a tune: a skeleton that certify accepts.
; Shadow OAM, OAM DMA from HRAM, joypad, far calls, a music driver called in VBlank. MBC5, four banks.

DEF rROMB0 EQU $2000		; MBC5: low byte of the ROM bank
DEF rP1    EQU $FF00
DEF rIF    EQU $FF0F
DEF rNR12  EQU $FF12
DEF rNR13  EQU $FF13
DEF rNR14  EQU $FF14
DEF rNR50  EQU $FF24
DEF rNR51  EQU $FF25
DEF rNR52  EQU $FF26
DEF rLCDC  EQU $FF40
DEF rSCY   EQU $FF42
DEF rSCX   EQU $FF43
DEF rLY    EQU $FF44
DEF rDMA   EQU $FF46
DEF rBGP   EQU $FF47
DEF rOBP0  EQU $FF48
DEF rIE    EQU $FFFF

DEF PADB_RIGHT EQU 0		; bits of hKeys
DEF PADB_LEFT  EQU 1
DEF PADB_UP    EQU 2
DEF PADB_DOWN  EQU 3

DEF NOTES EQU 6

; Calls a function in another bank. The bank that was mapped waits on the stack.
MACRO farcall
	ldh a, [hBank]
	push af
	ld a, BANK(\1)
	rst SwitchBank
	call \1
	pop af
	rst SwitchBank
ENDM

SECTION "RST 08", ROM0[$0008]
; Maps bank A. The variable is written first: an interrupt in between restores the bank by the variable.
SwitchBank:
	ldh [hBank], a
	ld [rROMB0], a
	ret

SECTION "VBlank vector", ROM0[$0040]
	jp VBlank

SECTION "Header", ROM0[$0100]
	nop
	jp Start
	ds $0150 - @, 0		; rgbfix fills in the header

SECTION "WRAM", WRAM0[$C000]
wShadowOam: ds 160		; OAM DMA copies from a page, so it starts at C000

SECTION "HRAM", HRAM[$FF90]
hBank:      ds 1		; the bank that is mapped at 4000-7FFF
hKeys:      ds 1
hFrameDone: ds 1
hBallX:     ds 1
hBallY:     ds 1
hWait:      ds 1		; frames until the next note
hNote:      ds 1

SECTION "Main", ROM0[$0150]
Start:
	di
	ld sp, $E000		; the stack grows down from the end of WRAM

.waitVBlank:
	ldh a, [rLY]
	cp 144
	jr nz, .waitVBlank
	xor a
	ldh [rLCDC], a

	ld hl, wShadowOam	; no object is shown
	ld b, 160
	xor a
.clearOam:
	ld [hl+], a
	dec b
	jr nz, .clearOam

	ldh [hKeys], a
	ldh [hFrameDone], a
	ldh [hWait], a
	ldh [hNote], a
	ldh [rSCX], a
	ldh [rSCY], a
	inc a
	rst SwitchBank
	ld a, 80
	ldh [hBallX], a
	ldh [hBallY], a
	call CopyOamDma
	farcall DrawField

	ld a, $80		; sound on
	ldh [rNR52], a
	ld a, $77
	ldh [rNR50], a
	ld a, $FF
	ldh [rNR51], a
	ld a, $E4
	ldh [rBGP], a
	ldh [rOBP0], a
	ld a, $93		; LCD, objects and background on, tiles at 8000
	ldh [rLCDC], a
	xor a
	ldh [rIF], a
	inc a			; VBlank only: it is the only handler
	ldh [rIE], a
	ei			; last: the handler calls code in HRAM

MainLoop:
	halt
	nop			; HALT can read the byte after it twice
	ldh a, [hFrameDone]
	and a
	jr z, MainLoop
	xor a
	ldh [hFrameDone], a
	call ReadJoypad
	call MoveBall
	jr MainLoop

VBlank:
	push af
	push bc
	push hl
	call OamDma
	farcall MusicUpdate
	ld a, 1
	ldh [hFrameDone], a
	pop hl
	pop bc
	pop af
	reti

ReadJoypad:
	ld a, $20		; directions
	ldh [rP1], a
	ldh a, [rP1]
	ldh a, [rP1]
	cpl
	and $0F
	ldh [hKeys], a
	ld a, $30
	ldh [rP1], a
	ret

MoveBall:
	ldh a, [hKeys]
	ld b, a
	ldh a, [hBallX]
	bit PADB_RIGHT, b
	jr z, .notRight
	inc a
.notRight:
	bit PADB_LEFT, b
	jr z, .notLeft
	dec a
.notLeft:
	ldh [hBallX], a
	ldh a, [hBallY]
	bit PADB_UP, b
	jr z, .notUp
	dec a
.notUp:
	bit PADB_DOWN, b
	jr z, .notDown
	inc a
.notDown:
	ldh [hBallY], a
	ld hl, wShadowOam
	ld [hl+], a		; Y
	ldh a, [hBallX]
	ld [hl+], a		; X
	ld a, 1
	ld [hl+], a		; tile
	xor a
	ld [hl], a		; attributes
	ret

CopyOamDma:
	ld hl, OamDmaCode
	ld b, OamDmaCode.end - OamDmaCode
	ld c, LOW(OamDma)
.copy:
	ld a, [hl+]
	ldh [c], a
	inc c
	dec b
	jr nz, .copy
	ret

; CopyOamDma copies this to HRAM. It starts OAM DMA and waits 160 M-cycles.
OamDmaCode:
	ld a, HIGH(wShadowOam)
	ldh [rDMA], a
	ld a, 40
.wait:
	dec a
	jr nz, .wait
	ret
.end:

SECTION "OAM DMA", HRAM[$FF80]
OamDma: ds 10

SECTION "Music", ROMX, BANK[2]
; A step each frame: a note every 20 frames.
MusicUpdate:
	ldh a, [hWait]
	and a
	jr z, .next
	dec a
	ldh [hWait], a
	ret
.next:
	ld a, 20
	ldh [hWait], a
	ldh a, [hNote]
	cp NOTES		; bounds the index
	jr c, .play
	xor a
.play:
	ld c, a
	inc a
	ldh [hNote], a
	ld b, 0
	ld hl, Tune
	add hl, bc
	ld a, $F3
	ldh [rNR12], a
	ld a, [hl]
	ldh [rNR13], a
	ld a, $87
	ldh [rNR14], a
	ret
Tune: db $20, $40, $60, $80, $A0, $60

SECTION "Field", ROMX, BANK[3]
DrawField:
	ld hl, Tiles
	ld de, $8000
	ld b, Tiles.end - Tiles
.copy:
	ld a, [hl+]
	ld [de], a
	inc de
	dec b
	jr nz, .copy
	ld hl, $9800		; tile 0 all over the map
	ld bc, 1024
.clear:
	xor a
	ld [hl+], a
	dec bc
	ld a, b
	or c
	jr nz, .clear
	ret
Tiles:
	db $00, $00, $00, $00, $00, $00, $00, $00, $00, $00, $00, $00, $00, $00, $00, $00
	db $3C, $3C, $7E, $42, $FF, $81, $FF, $81, $FF, $81, $FF, $81, $7E, $42, $3C, $3C
.end:
