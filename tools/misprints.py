"""Where the scan of the manual differs from the rows, and why the row is right. For compare_manual.py.

A misprint names its column as the scan heads it, and its differences by field: what the scan has, then what the row
has. A reason may quote other columns: 'ADDA (EXT) BB', with operand letters 'LDX (IMM) CE jj kk', with its count
'LDX (DIR) DE dd, 4 cycles'. compare_manual.py looks every quotation up in the scan and in the rows.
"""
from collections import namedtuple

Misprint = namedtuple("Misprint", "column differences reason")


def opcode(scan, row):
    return {"opcode": (scan, row)}


def mode(scan, row):
    return {"mode": (scan, row)}


def operands(scan, row):
    return {"operands": (scan, row)}


def one_more(length, cycles):
    """The row has these counts, the scan one byte and one cycle less."""
    return {"length": (str(length - 1), str(length)), "cycles": (str(cycles - 1), str(cycles))}


def indexed(printed, there, here):
    return (f"Printed is another column's opcode, {printed}. That is 18 and the opcode of {there}; "
            f"so here it is 18 and that of {here}.")


def of_stx(stx, ldy, ldx):
    return f"The column is STX's, opcode and counts: {stx}. The row is to that as {ldy}, is to {ldx}."


def inherent(like):
    return f"The column has no operand, and two cycles, as {like}, 2 cycles."


MISPRINTS = [
    Misprint("ADDA (IMM)", opcode("BB", "8B"),
             "Document 01 lists it. Printed is another column's opcode, ADDA (EXT) BB. As ADDB (IMM) CB is $30 less "
             "than ADDB (EXT) FB, and ADCA (IMM) 89 than ADCA (EXT) B9, so 8B is $30 less than that."),
    Misprint("ANDA (IND,Y)", opcode("18 AB", "18 A4"),
             "Document 01 lists it. " + indexed("ADDA (IND,Y) 18 AB", "ADDA (IND,X) AB", "ANDA (IND,X) A4")),
    Misprint("ANDB (IND,Y)", opcode("18 EB", "18 E4"),
             "Document 01 lists it. " + indexed("ADDB (IND,Y) 18 EB", "ADDB (IND,X) EB", "ANDB (IND,X) E4")),
    Misprint("ASR (IND,Y)", opcode("18 68", "18 67"),
             "Document 01 lists it. " + indexed("ASL (IND,Y) 18 68", "ASL (IND,X) 68", "ASR (IND,X) 67")),
    Misprint("BITA (IND,Y)", opcode("18 AB", "18 A5"),
             indexed("ADDA (IND,Y) 18 AB", "ADDA (IND,X) AB", "BITA (IND,X) A5")),
    Misprint("BITB (IND,Y)", opcode("18 EB", "18 E5"),
             indexed("ADDB (IND,Y) 18 EB", "ADDB (IND,X) EB", "BITB (IND,X) E5")),
    Misprint("ABY (INH)", opcode("1B 3A", "18 3A"),
             "1B is no prefix: it is the whole of ABA (INH) 1B. As INY (INH) 18 08, 4 cycles, is 18 and INX (INH) 08, "
             "3 cycles, so ABY with its four lines is 18 and ABX (INH) 3A, 3 cycles."),
    Misprint("LDS (IMM)", opcode("BE", "8E"),
             "As LDX (IMM) CE is $10 less than LDX (DIR) DE, and LDD (IMM) CC than LDD (DIR) DC, so 8E is $10 less "
             "than LDS (DIR) 9E. BE is the extended opcode: see there."),
    Misprint("LDS (EXT)", opcode("EE", "BE"),
             "Printed is another column's opcode, LDX (IND,X) EE. As LDX (EXT) FE is $10 more than that, and "
             "LDD (EXT) FC than LDD (IND,X) EC, so BE is $10 more than LDS (IND,X) AE."),
    Misprint("STY (DIR)", {**opcode("DF", "18 DF"), **one_more(3, 5)},
             of_stx("STX (DIR) DF dd, 4 cycles", "LDY (DIR) 18 DE dd, 5 cycles", "LDX (DIR) DE dd, 4 cycles")),
    Misprint("STY (EXT)", {**opcode("FF", "18 FF"), **one_more(4, 6)},
             of_stx("STX (EXT) FF hh ll, 5 cycles", "LDY (EXT) 18 FE hh ll, 6 cycles", "LDX (EXT) FE hh ll, 5 cycles")),
    Misprint("STY (IND,X)", {**opcode("EF", "1A EF"), **one_more(3, 6)},
             of_stx("STX (IND,X) EF ff, 5 cycles", "LDY (IND,X) 1A EE ff, 6 cycles", "LDX (IND,X) EE ff, 5 cycles")),
    Misprint("STY (IND,Y)", opcode("CD EF", "18 EF"),
             of_stx("STX (IND,Y) CD EF ff, 6 cycles", "LDY (IND,Y) 18 EE ff, 6 cycles",
                    "LDX (IND,Y) CD EE ff, 6 cycles")),
    Misprint("CPX (EXT)", operands("hh hh", "hh ll"),
             "Lines 4 and 5 of the column read at hhll and hhll+1. Compares of D and Y have ll: CPD (EXT) 1A B3 hh ll, "
             "CPY (EXT) 18 BC hh ll."),
    Misprint("SUBD (EXT)", operands("hh hh", "hh ll"),
             "Lines 4 and 5 of the column read at hhll and hhll+1. The addition has ll: ADDD (EXT) F3 hh ll."),
    Misprint("LDD (IMM)", operands("ii kk", "jj kk"),
             "ii is a byte of data, jj and kk are the two of a word (A.2, H). Other words have jj: LDX (IMM) CE jj kk, "
             "ADDD (IMM) C3 jj kk."),
    Misprint("BCLR (DIR)", operands("dd MM", "dd mm"),
             "The mask's letters are mm (A.2, H has no MM), as in BSET (DIR) 14 dd mm and BCLR (IND,Y) 18 1D ff mm."),
    Misprint("BCLR (IND,X)", operands("ff MM", "ff mm"),
             "The mask's letters are mm (A.2, H has no MM), as in BSET (IND,X) 1C ff mm and BCLR (IND,Y) 18 1D ff mm."),
    Misprint("TEST (INH)", {"cycles": ("n", "2")},
             "The manual has no fixed count: four lines, then '5-n'. Document 01 gives TEST 2. The step and the "
             "verdict refuse TEST, so the count is never spent."),
    Misprint("ASLA (IMM)", mode("IMM", "INH"), inherent("the same opcode under its second name, LSLA (INH) 48")),
    Misprint("ASLB (DIR)", mode("DIR", "INH"), inherent("the same opcode under its second name, LSLB (INH) 58")),
    Misprint("ASRA (IMM)", mode("IMM", "INH"), inherent("LSRA (INH) 44") + " Its source form has no '(opr)'."),
    Misprint("ASRB (DIR)", mode("DIR", "INH"), inherent("LSRB (INH) 54") + " Its source form has no '(opr)'."),
    Misprint("CLRA (IMM)", mode("IMM", "INH"), inherent("COMA (INH) 43") + " Its source form has no '(opr)'."),
    Misprint("CLRB (DIR)", mode("DIR", "INH"), inherent("COMB (INH) 53") + " Its source form has no '(opr)'."),
    Misprint("BCC (INH)", mode("INH", "REL"),
             "Its operand is rr, the relative offset, and its source form BCC (rel). The same opcode under its second "
             "name is BHS (REL) 24 rr, 3 cycles."),
]
