; Pressure ramp. Once a tick it moves the drive one step towards the set point: up while the measured pressure is below
; it, down while it is above, else not at all; and it clamps the drive at a maximum.
; Nothing is pushed or called: every depth and need is 0. The limit and the stack window are what the tick allows.
	.include "ticket.inc"
	.set	measured, 0x40		; in: pressure
	.set	setpoint, 0x41		; in: pressure wanted
	.set	drive, 0x42		; in and out: drive, 0 at power-up
	.set	step, 4
	.set	maximum, 200		; drive + step never wraps: 204 at most

	code_window
	data_window measured, 3
	stack_window 0x01f0, 16
	entry_point entry, 50

	mark	cost_after + 3, 0, 0
entry:	ldaa	*drive
	mark	cost_after + 3, 0, 0
	ldab	*measured
	mark	cost_after + 3, 0, 0
	cmpb	*setpoint
	mark	cost_after + 3, 0, 0, or=cost_clamp + 3
	beq	clamp
	mark	cost_after + 3, 0, 0, or=cost_lower + 3
	bhi	lower
	mark	cost_after + 2, 0, 0
	adda	#step
	mark	cost_clamp + 3, 0, 0	; clamp is the only way
	bra	clamp
	mark	cost_after + 2, 0, 0, at=lower
lower:	suba	#step
	mark	cost_after + 3, 0, 0, or=cost_clamp + 3
	bcc	clamp
	mark	cost_after + 2, 0, 0
	clra				; the drive stops at 0
	mark	cost_after + 2, 0, 0, at=clamp
clamp:	cmpa	#maximum
	mark	cost_after + 3, 0, 0, or=cost_store + 3
	bls	store
	mark	cost_after + 2, 0, 0
	ldaa	#maximum
	mark	cost_after + 3, 0, 0, at=store
store:	staa	*drive
	mark	5, 0, 0
	rts
	ticket_end
