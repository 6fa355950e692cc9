; A map in a bank is unpacked from runs; its bank and address are in a table of three bytes each. It's accepted, with many nodes.
	.module map_by_header
	.include "hardware.inc"
	.area	_FIXED (ABS)
	.org	0x0100
	nop
	jp	Start
	.area	_DATA
wMap:		.ds 1
wSum:		.ds 1
	.area	_CODE
Start:	ld	sp, #0xE000
Loop:	ldh	a, (rDIV)
	cp	#4
	jr	nc, Loop
	ld	(wMap), a
	call	LoadMap
	jr	Loop
LoadMap:
	call	GetMapHeader
	ld	a, (hl+)
	ld	e, a
	ld	a, (hl+)
	ld	d, a
	ld	hl, #0xD000
1$:	ld	a, (de)			; count, tile, ..; 256 tiles in all
	inc	de
	ld	b, a
	ld	a, (de)
	inc	de
2$:	ld	(hl), a
	inc	l
	ret	z
	dec	b
	jr	nz, 2$
	jr	1$
GetMapHeader:			; -> HL; the map's bank is mapped
	ld	a, (wMap)
	ld	c, a
	add	a, a
	add	a, c
	ld	c, a
	ld	b, #0
	ld	hl, #MapTable
	add	hl, bc
	ld	a, (hl+)
	ld	(rROMB0), a
	ld	a, (hl+)
	ld	h, (hl)
	ld	l, a
	ret
MapTable:
	.db	1
	.dw	MapTown
	.db	1
	.dw	MapHouse
	.db	2
	.dw	MapForest
	.db	2
	.dw	MapCave
	.area	_BANK_1
MapTown:	.dw	MapTownTiles, 0, 0
MapTownTiles:	.db	17,4, 6,0, 100,1, 5,2, 40,0, 255,4
MapHouse:	.dw	MapHouseTiles, 0, 0
MapHouseTiles:	.db	64,4, 2,0, 6,1, 100,0, 4,3, 255,4
	.area	_BANK_2
MapForest:	.dw	MapForestTiles, 0, 0
MapForestTiles:	.db	8,4, 1,3, 7,4, 90,0, 3,4, 80,2, 255,4
MapCave:	.dw	MapCaveTiles, 0, 0
MapCaveTiles:	.db	17,4, 14,0, 2,4, 1,0, 1,3, 80,0, 255,4
