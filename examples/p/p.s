; Routine P: saves A, calls a subroutine that stores A to the data window, and restores A. docs/TICKET.md reads its
; ticket aloud, byte by byte.
	.include "ticket.inc"
	.set	level, 0x40		; out: what A holds

	code_window
	data_window level, 1
	stack_window 0x01f0, 5		; P needs 3, and home 2
	entry_point entry, 26		; no more than P takes

	mark	cost_after + 3, 0, 3
entry:	psha
	mark	cost_after + cost_store + 6, 1, 2	; what follows the call, and the subroutine
	jsr	store
	mark	cost_after + 4, 1, 0
	pula
	mark	5, 0, 0
	rts
	nop				; never reached, and not marked
	nop

	mark	cost_after + 3, 0, 0, at=store
store:	staa	*level
	mark	5, 0, 0
	rts
	ticket_end
