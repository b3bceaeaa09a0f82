; No mix: NOPs alone, for what every instruction costs whatever it does (fetch, table, budget, the test for home).
        .text
loop:   nop
        nop
        nop
        nop
        nop
        nop
        nop
        nop
        nop
        nop
        nop
        nop
        nop
        nop
        nop
        bra     loop
