; Straight arithmetic on immediate, direct and extended operands; two stores let the values differ in every turn. MUL is
; done in some turns only. What GNU's simulator gets wrong (ADCB EXT, C after MUL, V after INC, H) is not read by any
; instruction here.
        .text
loop:   ldaa    *0x40
        adda    #0x35
        ldab    0x2001
        adcb    *0x41
        subb    #0x13
        anda    #0xfe
        eorb    0x2002
        inca
        addd    #0x5234
        std     *0x40
        lsra
        rolb
        tab
        aba
        asla
        staa    0x2001
        cmpa    #0x50
        bcs     loop
        oraa    *0x41
        mul
        addb    #0x07
        stab    0x2002
        bra     loop
