; Loads and stores in every addressing mode, and instructions that change a byte in memory. The pointer at $58 walks
; over $2200 to $22FF.
        .text
        ldx     #0x2200
        stx     *0x58
        ldy     #0x2300
loop:   ldx     *0x58
        ldaa    *0x59
        adda    0,x
        staa    0x2100
        ldab    1,x
        stab    5,y
        ldd     0x2100
        std     *0x50
        staa    0,x
        rol     5,y
        ldaa    5,y
        staa    1,x
        bset    *0x54 #0x81
        inc     0x0059
        stx     0x210a
        brclr   *0x59 #0x03 loop
        clr     0x0054
        inc     0x2100
        bclr    1,x #0x08
        bra     loop
