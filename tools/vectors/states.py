#!/usr/bin/env python3
"""Writes the states that both simulators execute, to standard output, a line for each:

    PLACE BEFORE N ADDRESSBYTE ...

PLACE is 256 times the opcode map (0, or 1, 2, 3 after $18, $1A, $CD) plus the opcode. BEFORE is A B X Y SP PC flags, 11
bytes. Every byte that the instruction may read is listed with its address; every other byte of memory is $3C (the
drivers know that).

The list of places with action, mode and length is read from crates/opcodes/specs/Rows.antt. It decides which states are
made and nothing else: no expected answer comes from it. The same states come out at every run (random numbers with a
fixed seed).
"""
import random
import sys
from collections import namedtuple
from pathlib import Path

sys.dont_write_bytecode = True  # no __pycache__ beside the sources
sys.path.insert(0, str(Path(__file__).resolve().parent.parent))
import rows as table

REFUSED = {"Test", "Wai", "Stop"}
PREFIX = {0: [], 1: [0x18], 2: [0x1A], 3: [0xCD]}
DEVICES = range(0x1000, 0x1040)  # MAME has its on-chip registers here
DEVICE_STORES = (0x1000, 0x1004, 0x1020)  # ports and an output compare control: nothing that disturbs what follows
USUAL = 120
FIRST_SEED = 6811_0000

EDGE8 = [0x00, 0x01, 0x7F, 0x80, 0xFF]
MORE8 = EDGE8 + [0x08, 0x09, 0x0F, 0x10, 0x55, 0x81, 0xAA, 0xFE]
EDGE16 = [0x0000, 0x0001, 0x007F, 0x0080, 0x00FF, 0x7FFF, 0x8000, 0xFFFF]
EDGE_ADDRESS = EDGE16 + [0x00FE, 0x0100, 0xFFFE]
EDGE_STACK = [0x0000, 0x0001, 0x0002, 0x0007, 0x0008, 0x0009, 0x00FF, 0x0100]
EDGE_STACK += [0x8000, 0xFFF5, 0xFFF6, 0xFFF7, 0xFFF8, 0xFFFD, 0xFFFE, 0xFFFF]
HALF_CARRIES = [(0x0F, 0x01), (0x08, 0x08), (0x07, 0x09), (0x0F, 0x0F),
                (0x10, 0xF0), (0xF8, 0x08), (0x80, 0x7F), (0x99, 0x66)]

BYTE_SIZED = {"Binary", "TstMemory", "StoreByte", "Modify", "Bset", "Bclr", "Brset", "Brclr"}
WORD_SIZED = {"LoadWord", "StoreWord", "Addd", "Subd", "CompareWord"}
STORES = {"StoreByte", "StoreWord"}
ON_FLAGS = {"Clv", "Sev", "Clc", "Sec", "Cli", "Sei", "Tpa", "Branch", "Rti", "Swi"}
ON_TWO_BYTES = {"Aba", "Sba", "Cba", "Mul"}
DIVISIONS = {"Idiv", "Fdiv"}
PULLED = {"PullByte": 1, "PullWord": 2, "Rts": 2}
FLAG_BIT = {"C": 0x01, "H": 0x20, "X": 0x40}

# A row of the table: kind is the action's first word; name its operation, as Adc; register what it works on, where it
# names one.
Row = namedtuple("Row", "place kind name register mode length")

# What a state is to try: a value of the register, one of the operand, and flags to set (capital letter) or clear; None
# leaves it to chance.
Subject = namedtuple("Subject", "register operand flags", defaults=(None, None, None))


def rows():
    """A row for each place that is executed."""
    for row in table.rows():
        words = [w.split(".")[-1] for w in row.action.split()]
        if words[0] not in REFUSED:
            name = words[1] if words[0] in ("Inherent", "Binary", "Unary", "Modify") else words[0]
            yield Row(row.place, words[0], name, words[-1], row.mode, row.length)


class Chooser:
    """The choices for one place: values are edges half of the time; addresses go through their edges first of all."""

    def __init__(self, place):
        self.random = random.Random(FIRST_SEED + place)
        self.low, self.high = list(range(16)), list(range(16))
        self.random.shuffle(self.low)
        self.random.shuffle(self.high)

    def some(self, edges, most):
        return self.random.choice(edges) if self.random.random() < 0.5 else self.random.randrange(most)

    def byte(self):
        return self.some(MORE8, 256)

    def word(self):
        return self.some(EDGE16, 65536)

    def edge_address(self, i):
        return EDGE_ADDRESS[i // 3 % len(EDGE_ADDRESS)]

    def address(self, i):
        return self.edge_address(i) if i % 3 == 1 else self.some(EDGE_ADDRESS, 65536)

    def stack(self, i):
        return EDGE_STACK[i // 4 % len(EDGE_STACK)] if i % 4 == 1 else self.some(EDGE_STACK, 65536)

    def flags(self, i):
        """All 256 values in 256 turns, and both half-bytes through all of theirs in 16."""
        return 16 * self.high[(i + i // 16) % 16] + self.low[i % 16]

    def pc(self, i, length):
        """In every third turn at first, the places around $FFFF: every way to lie across it."""
        ends = [0x10000 - k for k in range(1, length + 1)] + [0x0000]
        return ends[i // 3 % len(ends)] if i % 3 == 0 and i // 3 < 2 * len(ends) else self.random.randrange(65536)


class State:
    def __init__(self, choose, i, length):
        self.a, self.b = choose.byte(), choose.byte()
        self.x, self.y, self.sp = choose.word(), choose.word(), choose.stack(i)
        self.pc, self.flags = choose.pc(i, length), choose.flags(i)
        self.memory, self.operand = {}, None

    def set_d(self, d):
        self.a, self.b = d >> 8, d & 255

    def put(self, address, values):
        """Lists bytes from an address on. A byte that is listed already keeps its value: code comes first."""
        for k, v in enumerate(values):
            self.memory.setdefault((address + k) & 0xFFFF, v)

    def meets_devices(self):
        """Whether the instruction may read or write where MAME has devices."""
        stack = [(self.sp + k) & 0xFFFF for k in range(-9, 11)]
        operand = [] if self.operand is None else [self.operand, (self.operand + 1) & 0xFFFF]
        return any(address in DEVICES for address in [*self.memory, *operand, *stack])

    def line(self, place):
        before = f"{self.a:02X}{self.b:02X}{self.x:04X}{self.y:04X}{self.sp:04X}{self.pc:04X}{self.flags:02X}"
        cells = [f"{a:04X}{v:02X}" for a, v in self.memory.items()]
        return f"{place:03X} {before} {len(cells):02X} {' '.join(cells)}\n"


def subjects(row):
    """What a place is tried on before chance alone chooses."""
    if row.kind == "Binary":
        edges = [Subject(a, m, c) for c in "Cc" for a in EDGE8 for m in EDGE8]
        return edges + [Subject(a, m) for a, m in HALF_CARRIES]
    if row.name in ("Rol", "Ror") and row.kind == "Unary":
        return [Subject(a, flags=c) for c in "Cc" for a in range(256)]
    if row.kind in ("Unary", "TstAccumulator"):
        return [Subject(a) for a in range(256)]
    if row.kind in ("Modify", "TstMemory"):
        return [Subject(operand=m, flags=c) for c in "Cc" for m in MORE8]
    if row.kind in WORD_SIZED or row.name in DIVISIONS:
        return [Subject(r, m) for r in EDGE16 for m in EDGE16]
    if row.kind == "StoreByte":
        return [Subject(a) for a in MORE8]
    if row.name in ON_TWO_BYTES:
        return [Subject(256 * a + b) for a in MORE8 for b in MORE8]
    if row.name in ("Abx", "Aby"):
        return [Subject(b, x) for b in EDGE8 for x in EDGE16]
    if row.name in ("Asld", "Lsrd"):
        return [Subject(d) for d in EDGE16]
    if row.name == "Daa":
        return [Subject(a, flags=h + c) for a in range(256) for h in "Hh" for c in "Cc"]
    if row.name == "Tap":
        return [Subject(a, flags=x) for a in range(256) for x in "Xx"]
    if row.name in ON_FLAGS:
        return [Subject()] * 256
    return []


def how_many(row, tried):
    return tried + 100 if row.name in ON_TWO_BYTES | DIVISIONS else max(USUAL, tried)


def set_flags(state, choose, letters):
    """The flags that a subject asks for, the others by chance."""
    if letters:
        state.flags = choose.random.randrange(256)
    for letter in letters or "":
        bit = FLAG_BIT[letter.upper()]
        state.flags = state.flags | bit if letter.isupper() else state.flags & ~bit


def set_register(state, row, value):
    if row.register in ("A", "Daa", "Tap"):
        state.a = value
    elif row.register in ("B", "Abx", "Aby"):
        state.b = value
    elif row.register == "X":
        state.x = value
    elif row.register == "Y":
        state.y = value
    elif row.register == "S":
        state.sp = value
    else:
        state.set_d(value)


def set_index(state, choose, row, subject):
    """X or Y as the second operand of a division, ABX and ABY; without a subject, a division that has a quotient."""
    if subject.operand is not None:
        state.x = state.y = subject.operand
    elif row.name == "Idiv":
        state.x = choose.random.randrange(64)
    elif row.name == "Fdiv":
        state.x = choose.random.randrange(1, 65536)
        state.set_d(choose.random.randrange(state.x))


def indexed(state, choose, row, subject, i):
    """An offset and its address. In every third turn the sum is an edge, unless the index register is the subject."""
    offset, index = choose.byte(), row.mode[-1]
    if i % 3 == 2 and (subject.register is None or row.register != index):
        base = (choose.edge_address(i) - offset) & 0xFFFF
        state.x, state.y = (base, state.y) if index == "X" else (state.x, base)
    return offset, ((state.x if index == "X" else state.y) + offset) & 0xFFFF


def mask(choose, row, value):
    """Any mask, or one that makes a branch taken."""
    m = choose.byte()
    if row.kind == "Brset" and choose.random.random() < 0.4:
        return m & value
    if row.kind == "Brclr" and choose.random.random() < 0.4:
        return m & ~value
    return m


def addressed(state, choose, row, subject, i, at):
    """The bytes that give an operand's address. `at` is an extended address that must be taken, or None."""
    if row.mode == "Extended":
        state.operand = choose.address(i) if at is None else at
        return [state.operand >> 8, state.operand & 255]
    if row.mode[-1] in "XY":
        offset, state.operand = indexed(state, choose, row, subject, i)
        return [offset]
    state.operand = choose.byte()
    return [state.operand]


def put_instruction(state, choose, row, subject, i, at):
    """Lists the instruction's bytes and, where it reads one, its operand in memory."""
    code = PREFIX[row.place >> 8] + [row.place & 255]
    wide = row.kind not in BYTE_SIZED
    value = subject.operand
    if value is None or row.mode == "Inherent":
        value = choose.word() if wide else choose.byte()
    value_bytes = [value >> 8, value & 255] if wide else [value]
    if row.mode.startswith("Immediate"):
        code += value_bytes
    elif row.mode == "Relative":
        code += [choose.byte()]
    elif row.mode != "Inherent":
        code += addressed(state, choose, row, subject, i, at)
    if row.mode.startswith("Mask"):
        code += [mask(choose, row, value)]
    if row.mode.startswith("MaskBranch"):
        code += [choose.byte()]
    assert len(code) == row.length
    state.put(state.pc, code)
    if state.operand is not None and row.kind not in STORES | {"Jmp", "Call"}:
        state.put(state.operand, value_bytes)


def put_stack(state, choose, row, i):
    """Lists the bytes that a pull, a return or SWI reads."""
    if row.kind == "Rti":
        state.put(state.sp + 1, [i % 256] + [choose.byte() for _ in range(8)])
    if row.kind == "Swi":
        state.put(0xFFF6, [choose.byte(), choose.byte()])
    state.put(state.sp + 1, [choose.byte() for _ in range(PULLED.get(row.kind, 0))])


def build(choose, row, subject, i, at=None):
    state = State(choose, i, row.length)
    if subject.register is not None:
        set_register(state, row, subject.register)
    if row.name in DIVISIONS | {"Abx", "Aby"}:
        set_index(state, choose, row, subject)
    set_flags(state, choose, subject.flags)
    put_instruction(state, choose, row, subject, i, at)
    put_stack(state, choose, row, i)
    return state


def states(row):
    choose = Chooser(row.place)
    tried = subjects(row)
    for i in range(how_many(row, len(tried))):
        subject = tried[i] if i < len(tried) else Subject()
        state = build(choose, row, subject, i)
        while state.meets_devices():
            state = build(choose, row, subject, i)
        yield state
    if row.kind in STORES and row.mode == "Extended":
        for at in DEVICE_STORES:
            yield build(choose, row, Subject(), 1, at)


def check_ends(made, row):
    """That the states of a place try the ends of memory."""
    assert row.length == 1 or all(any(s.pc == 0x10000 - k for s in made) for k in range(1, row.length + 1))
    assert {0x0000, 0xFFFF} <= {s.sp for s in made}
    operands = {s.operand for s in made}
    if row.mode == "Extended" or row.mode[-1] in "XY":
        assert {0x0000, 0xFFFE, 0xFFFF} <= operands
    elif row.mode.endswith("Direct"):
        assert {0x00, 0xFF} <= operands


def main():
    for row in rows():
        made = list(states(row))
        check_ends(made, row)
        for state in made:
            sys.stdout.write(state.line(row.place))


if __name__ == "__main__":
    main()
