; Marks whose costs lead every way that a file's order allows: forwards and backwards, through branches, branches in
; branches, and calls in them. It tries the assembler's sums: tests/examples/run asks whether each is the least.
	.include "ticket.inc"
	code_window
	data_window 0x0040, 1
	stack_window 0x01f0, 16
	entry_point entry, 200
	home_point 0xe000

; Before its caller, with a branch, and a call of one that stands after everything: not known yet when it is called.
	mark	cost_after + cost_late + 6, 0, 4, at=early
early:	jsr	late
	mark	cost_after + 3, 0, 0, or=cost_early2 + 3
	beq	early2
	mark	cost_after + 41, 0, 0
	idiv
	mark	5, 0, 0, at=early2
early2:	rts

; Before its caller, and complete.
	mark	cost_after + 3, 0, 0, or=cost_complete2 + 3, at=complete
complete: bcs	complete2
	mark	cost_after + 10, 0, 0
	mul
	mark	5, 0, 0, at=complete2
complete2: rts

	mark	cost_after + 3, 0, 6
entry:	ldaa	*0x40
	mark	cost_after + 3, 0, 6, or=cost_to_b + 3
	beq	to_b
	mark	cost_after + 3, 0, 6, or=cost_to_c + 3
	bne	to_c
	mark	cost_after + 6, 0, 6, or=cost_to_d + 6
	brset	*0x40 #1 to_d
	mark	cost_after + cost_early + 6, 0, 6
	jsr	early
	mark	cost_after + cost_complete + 6, 0, 2
	bsr	complete
	mark	cost_to_d + 3, 0, 0
	bra	to_d

; Backwards without a loop: from to_c to to_b, whose way leads on to to_e, behind both; a call on each way.
	mark	cost_after + cost_late + 6, 0, 4, at=to_b
to_b:	jsr	late
	mark	cost_to_e + 3, 0, 4
	bra	to_e
	mark	cost_after + cost_complete + 6, 0, 4, at=to_c
to_c:	jsr	complete
	mark	cost_after + 3, 0, 4, or=cost_to_b + 3
	bcc	to_b
	mark	cost_after + 3, 0, 4, or=cost_to_f + 3
	bvs	to_f
	mark	cost_to_e + 3, 0, 4
	jmp	to_e
	mark	cost_to_b + 3, 0, 4, at=to_f
to_f:	bra	to_b
	mark	cost_after + 2, 0, 0, at=to_d
to_d:	nop
	mark	5, 0, 0
	rts
	mark	cost_after + 3, 0, 4, or=cost_to_d + 3, at=to_e
to_e:	bmi	to_d
	mark	cost_after + cost_late + 6, 0, 4
	jsr	late
	mark	cost_to_d + 3, 0, 0
	bra	to_d

; After its callers.
	mark	cost_after + 3, 0, 2, at=late
late:	psha
	mark	cost_after + 3, 1, 1, or=cost_late2 + 3
	bvc	late2
	mark	cost_after + 3, 1, 1
	pshb
	mark	cost_after + 4, 2, 0
	pulb
	mark	cost_after + 4, 1, 0, at=late2
late2:	pula
	mark	5, 0, 0
	rts
	ticket_end
