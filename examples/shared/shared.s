; Mean pressure of two sensors. Both readings go through one subroutine, which corrects the gain; the first result waits
; on the stack while the second is made.
; A call counts both ways: the subroutine's cost and the cost after it; for the need 2 for the return address and the
; subroutine's need. The subroutine's own depth begins at 0 again. Deepest are 4 bytes: left's result, the return
; address, the reading; and home's 2 make 6.
	.include "ticket.inc"
	.set	left, 0x50		; in: reading of the left sensor
	.set	right, 0x51		; in: reading of the right sensor
	.set	mean, 0x52		; out: mean pressure
	.set	trim, 38		; gain 1 + 38/256

	code_window
	data_window left, 3
	stack_window 0x01f0, 16
	entry_point entry, 120

	mark	cost_after + 3, 0, 4
entry:	ldaa	*left
	mark	cost_after + cost_scale + 6, 0, 4	; the need after it, more than 2 and scale's 1
	bsr	scale
	mark	cost_after + 3, 0, 4
	psha
	mark	cost_after + 3, 1, 3
	ldaa	*right
	mark	cost_after + cost_scale + 6, 1, 3	; the need is 2 and scale's 1
	bsr	scale
	mark	cost_after + 4, 1, 0
	pulb
	mark	cost_after + 2, 0, 0
	aba
	mark	cost_after + 2, 0, 0
	rora				; the carry of the sum comes in at the top
	mark	cost_after + 3, 0, 0
	staa	*mean
	mark	5, 0, 0
	rts

; A := A + A * trim / 256, at most 255. B is lost.
	mark	cost_after + 3, 0, 1, at=scale
scale:	psha				; MUL overwrites the reading
	mark	cost_after + 2, 1, 0
	ldab	#trim
	mark	cost_after + 10, 1, 0
	mul
	mark	cost_after + 4, 1, 0
	pulb
	mark	cost_after + 2, 0, 0
	aba
	mark	cost_after + 3, 0, 0, or=cost_scaled + 3
	bcc	scaled
	mark	cost_after + 2, 0, 0
	ldaa	#255
	mark	5, 0, 0, at=scaled
scaled:	rts
	ticket_end
