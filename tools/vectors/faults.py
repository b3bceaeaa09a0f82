"""Where the two simulators are wrong by the manual. docs/SIMULATORS.md has the same list with the manual's lines.

A fault names the simulator, the places, the fields, and `says`: what the simulator answers there. Its answer in those
fields is left out exactly where it is what `says` describes; any other disagreement of the two stops merge.py.
`says(before, after, memory)` gets the fields before and after (by that simulator) and memory before as a function of
the address.
"""
from collections import namedtuple

Fault = namedtuple("Fault", "simulator name places fields says")


def accumulator(opcode):
    """An accumulator instruction's places from its immediate opcode: immediate, direct, IND,X, extended, IND,Y."""
    return [opcode, opcode + 0x10, opcode + 0x20, opcode + 0x30, 0x100 + opcode + 0x20]


def in_memory(low):
    """A read-modify-write's places in memory from its low half-byte: IND,X, extended, IND,Y."""
    return [0x60 + low, 0x70 + low, 0x160 + low]


def anywhere(low):
    """The same with accumulators A and B."""
    return [0x40 + low, 0x50 + low, *in_memory(low)]


def at(address):
    return address & 0xFFFF


def operand_extended(before, memory):
    return memory(256 * memory(at(before["PC"] + 1)) + memory(at(before["PC"] + 2)))


def result(before, after, memory):
    """The byte that a read-modify-write leaves: the byte written, or the accumulator."""
    if after["writes"]:
        return after["writes"][0][1]
    return after["A"] if memory(before["PC"]) < 0x50 else after["B"]


def written(after, address):
    return dict(after["writes"]).get(at(address))


def d(fields):
    return 256 * fields["A"] + fields["B"]


ADDITIONS = [0x1B, *accumulator(0x8B), *accumulator(0xCB), *accumulator(0x89), *accumulator(0xC9)]
TAP, RTI, SWI, MUL, IDIV, FDIV, DAA = 0x06, 0x3B, 0x3F, 0x3D, 0x02, 0x03, 0x19
ADCB_EXT, CPX_EXT, JSR_IND_Y = 0xF9, 0xBC, 0x1AD
NEG, LSR, ROR, ROL, DEC, INC, TST = 0x0, 0x4, 0x6, 0x9, 0xA, 0xC, 0xD

FAULTS = [
    Fault("GNU", "ABA, ADD, ADC: H as before", ADDITIONS, "H", lambda b, a, m: a["H"] == b["H"]),
    Fault("GNU", "ADCB EXT: does EOR", [ADCB_EXT], "BNZVC",
          lambda b, a, m: a["B"] == b["B"] ^ operand_extended(b, m) and a["C"] == b["C"]),
    Fault("GNU", "INC, DEC: V 0", [*anywhere(INC), *anywhere(DEC)], "V", lambda b, a, m: a["V"] == 0),
    Fault("GNU", "NEG: V 0", anywhere(NEG), "V", lambda b, a, m: a["V"] == 0),
    Fault("GNU", "NEG: C inverted", anywhere(NEG), "C", lambda b, a, m: a["C"] == (result(b, a, m) == 0)),
    Fault("GNU", "MUL: C from the old B", [MUL], "C", lambda b, a, m: a["C"] == b["B"] >> 7),
    Fault("GNU", "FDIV by 0: C 0", [FDIV], "C", lambda b, a, m: b["IX"] == 0 and a["C"] == 0),
    Fault("GNU", "TAP, RTI: X from 0 to 1", [TAP, RTI], "X", lambda b, a, m: b["X"] == 0 and a["X"] == 1),
    Fault("GNU", "RTI: A and B swapped", [RTI], "AB",
          lambda b, a, m: a["A"] == m(at(b["SP"] + 2)) and a["B"] == m(at(b["SP"] + 3))),
    Fault("GNU", "SWI: A and B swapped", [SWI], ["writes"],
          lambda b, a, m: written(a, b["SP"] - 6) == b["B"] and written(a, b["SP"] - 7) == b["A"]),
    Fault("GNU", "SWI: a swapped byte as vector", [SWI], ["PC"],
          lambda b, a, m: {at(b["SP"] - 6), at(b["SP"] - 7)} & {0xFFF6, 0xFFF7}),
    Fault("GNU", "SWI: 28 cycles", [SWI], ["cycles"], lambda b, a, m: a["cycles"] == 28),
    Fault("GNU", "CPX EXT: 5 cycles", [CPX_EXT], ["cycles"], lambda b, a, m: a["cycles"] == 5),
    Fault("GNU", "JSR IND,Y: 6 cycles", [JSR_IND_Y], ["cycles"], lambda b, a, m: a["cycles"] == 6),
    Fault("MAME", "LSR in memory: Z from B", in_memory(LSR), "Z", lambda b, a, m: a["Z"] == (b["B"] == 0)),
    Fault("MAME", "ROR in memory: N, Z, V from B", in_memory(ROR), "NZV",
          lambda b, a, m: (a["N"], a["Z"], a["V"]) == (b["B"] >> 7, b["B"] == 0, a["N"] ^ a["C"])),
    Fault("MAME", "ROL, ROR, TST IND,Y: 6 cycles", [0x160 + ROL, 0x160 + ROR, 0x160 + TST], ["cycles"],
          lambda b, a, m: a["cycles"] == 6),
    Fault("MAME", "JSR IND,Y: 6 cycles", [JSR_IND_Y], ["cycles"], lambda b, a, m: a["cycles"] == 6),
    Fault("MAME", "IDIV by 0: D $FFFF", [IDIV], "AB", lambda b, a, m: b["IX"] == 0 and d(a) == 0xFFFF),
    Fault("MAME", "FDIV with X at or below D: D $FFFF", [FDIV], "AB",
          lambda b, a, m: b["IX"] <= d(b) and d(a) == 0xFFFF),
]

# Places at which a simulator gives no answer at all.
HALTS = {("GNU", DAA)}

# A field that both have wrong, with the manual's value: JSR's cycle-by-cycle table has seven rows for IND,Y (scan,
# lines 2515 to 2521).
MANUAL = {(JSR_IND_Y, "cycles"): 7}
