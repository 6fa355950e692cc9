; engine: a small adventure on an island, in the structure of a large game (MBC5, 16 banks).
;
; The home bank has the vectors, the VBlank handler, and what reads from a data bank while it is mapped: scripts, texts and maps.
; Each part of the game has its code in a bank of its own, and is called from home by far_call. `bank` has the bank that is
; mapped; it is written before the register, so that the handler restores the right one.
;
; home.inc      vectors, start, main loop, interrupt handler, keys, VRAM queue, objects
; text.inc      texts with control codes, a character each frame
; script.inc    the scripts' interpreter
; title.inc     title, main menu and end
; field.inc     the map, its camera, and the hero's steps
; actors.inc    what else moves on the map
; battle.inc    battles by turns
; pause.inc     the menu in the field: items, status, save
; sound.inc     tunes and effects by lists of commands
; The other files have data only.

	.module engine
	.include "hardware.inc"
	.include "constants.inc"
	.include "home.inc"
	.include "game.inc"
	.include "text.inc"
	.include "title.inc"
	.include "field.inc"
	.include "actors.inc"
	.include "script.inc"
	.include "pause.inc"
	.include "battle.inc"
	.include "sound.inc"
	.include "texts.inc"
	.include "scripts.inc"
	.include "maps.inc"
	.include "tiles.inc"
	.include "picture.inc"
