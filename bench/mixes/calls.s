; Calls and stack: two subroutines with small bodies, bytes and words pushed and pulled, a local byte on the stack.
        .text
        lds     #0x01ff
        ldx     #0x2000
loop:   jsr     local
        psha
        bsr     saved
        pula
        inca
        bne     loop
        inx
        jmp     loop

local:  pshx
        pshb
        des
        tsx
        staa    0,x
        addb    0,x
        ins
        pulb
        pulx
        rts

saved:  pshx
        dex
        pulx
        decb
        rts
