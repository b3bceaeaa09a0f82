; Switches a relay on, waits until its contact reports it, and starts the pump. Refused: cause 16 at $8006, the branch
; back.
; Why: no number of cycles covers the wait. A branch needs 3 cycles and the cost at its target, and the cost at wait has
; this branch in it: 3 + 3 + its own cost. The mark of the branch leaves the way back out; with or=cost_wait + 3 the
; assembler itself says `symbol definition loop`. (Nor would the wait end: nothing changes the switch while the routine
; runs.)
; Mend: write `bpl done`, and or=cost_done + 3 at its mark. The routine looks once and returns; the next tick looks
; again.
; Nothing is pushed or called: every depth and need is 0.
	.include "ticket.inc"
	.set	relay, 0x40		; out: bit 7 switches the relay on
	.set	switch, 0x41		; in: bit 7 is set while the relay is on
	.set	pump, 0x42		; out: pump drive

	code_window
	data_window relay, 3
	stack_window 0x01f0, 16
	entry_point entry, 50

	mark	cost_after + 2, 0, 0
entry:	ldaa	#0x80
	mark	cost_after + 3, 0, 0
	staa	*relay
	mark	cost_after + 3, 0, 0, at=wait
wait:	ldaa	*switch			; sets N from bit 7
	mark	cost_after + 3, 0, 0	; too low, as any other cost would be
	bpl	wait
	mark	cost_after + 2, 0, 0
	ldaa	#120
	mark	cost_after + 3, 0, 0
	staa	*pump
	mark	5, 0, 0, at=done
done:	rts
	ticket_end
