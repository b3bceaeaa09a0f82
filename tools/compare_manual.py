#!/usr/bin/env python3
"""compare_manual.py [-v] MANUAL: compares the rows of crates/opcodes/specs/Rows.antt with the manual's cycle tables.

MANUAL is a text of Appendix A of Motorola's M68HC11 Reference Manual (manual.py); it is not in the repository. A column
of a table is an instruction in a mode. Its mode, opcode, operand letters, length (the bytes at OP, OP+1 and so on) and
cycles (its lines) are compared; the addresses and R/W of its other lines and the condition codes are not.

A difference is printed with the reason why the row is right (misprints.py), and with -v every column that agrees. The
exit status is 1 on a difference without a reason, a column without a row, a row without a column, a reason whose
difference is not there, and one that quotes falsely. Last line: 'N columns agree, M differ with a reason, K differ
without'.
"""
import re
import sys
from collections import Counter

sys.dont_write_bytecode = True  # no __pycache__ beside the sources
from manual import HEAD, Entry, Unread, columns
from misprints import MISPRINTS
from rows import ALIASES, mnemonic, rows

COMPARED = ["mode", "opcode", "operands", "length", "cycles"]

PREFIX = ["", "18 ", "1A ", "CD "]
# A mode's name in the manual, and its operand letters there.
MODES = {
    "Inherent": ("INH", ""),
    "Immediate8": ("IMM", "ii"),
    "Immediate16": ("IMM", "jj kk"),
    "Direct": ("DIR", "dd"),
    "Extended": ("EXT", "hh ll"),
    "IndexedX": ("IND,X", "ff"),
    "IndexedY": ("IND,Y", "ff"),
    "Relative": ("REL", "rr"),
    "MaskDirect": ("DIR", "dd mm"),
    "MaskX": ("IND,X", "ff mm"),
    "MaskY": ("IND,Y", "ff mm"),
    "MaskBranchDirect": ("DIR", "dd mm rr"),
    "MaskBranchX": ("IND,X", "ff mm rr"),
    "MaskBranchY": ("IND,Y", "ff mm rr"),
}

# A reason's quotation: a column's head, its opcode, and perhaps its operands and its cycles.
QUOTED = HEAD + r" ([0-9A-F]{2}(?: [0-9A-F]{2})?(?: (?:ii|jj|kk|dd|hh|ll|ff|mm|rr)\b)*(?:, \d+ cycles)?)"


def entry_of(row):
    """What a row says, as a column would."""
    mode, operands = MODES[row.mode]
    opcode = f"{PREFIX[row.place // 256]}{row.place % 256:02X}"
    name, length, cycles = mnemonic(row.action, row.mode), str(row.length), str(row.cycles)
    return Entry(name, mode, opcode, operands, length, cycles, f"row 0x{row.place:03x}")


def rows_of(col, entries):
    """The rows that a column may be: the only one of its name, or those of its name and mode. One, if all is well."""
    name = ALIASES.get(col.name, col.name)
    named = [e for e in entries if e.name == name]
    return named if len(named) == 1 else [e for e in named if e.mode == col.mode]


def title(e):
    return f"{e.name} ({e.mode})"


def code(e):
    return f"{e.opcode} {e.operands}".rstrip()


def counted(e):
    return f"{code(e)}, {e.cycles} cycles"


def differences(col, row):
    pairs = {field: (getattr(col, field), getattr(row, field)) for field in COMPARED}
    return {field: pair for field, pair in pairs.items() if pair[0] != pair[1]}


def shown(diff):
    return "; ".join(f"{field} {scan or 'none'}, the row {row or 'none'}" for field, (scan, row) in diff.items())


class Comparison:
    """Every column with its row, every row with its columns, every reason with its difference."""

    def __init__(self, cols, entries):
        self.cols = {title(c): c for c in cols}
        self.rows = {title(c): rows_of(c, entries) for c in cols}
        self.reasons = {m.column: m for m in MISPRINTS}
        self.agree, self.explained, self.unexplained, self.faults = [], [], [], []
        for c in cols:
            self.compare(c)
        self.check_cover(cols, entries)
        for m in MISPRINTS:
            self.check_reason(m)

    def compare(self, c):
        found, head = self.rows[title(c)], f"{c.where}, {title(c)}: "
        if len(found) != 1:
            self.unexplained.append(head + (" and ".join(e.where for e in found) or "no row"))
            return
        diff, reason = differences(c, found[0]), self.reasons.get(title(c))
        if not diff:
            self.agree.append(f"{head}{counted(c)}; {found[0].where}")
        elif reason and reason.differences == diff:
            self.explained.append(f"{head}{shown(diff)}\n    {reason.reason}")
        else:
            self.unexplained.append(f"{head}{shown(diff)} ({found[0].where}): no reason is known")

    def check_cover(self, cols, entries):
        """Each row has one column under its own name, and one under its second name if it has that."""
        met = Counter((e, c.name in ALIASES) for c in cols for e in self.rows[title(c)])
        for e in entries:
            self.check_met(e, "its own name", met[e, False], 1)
            self.check_met(e, "a second name", met[e, True], int(e.name in ALIASES.values()))

    def check_met(self, e, name, found, due):
        if found != due:
            self.faults.append(f"{e.where}, {title(e)}: {found} columns of the manual under {name}, not {due}")

    def check_reason(self, m):
        """A reason's column differs exactly as the reason says, and what it quotes is in the manual and in the rows."""
        said = f"the reason for {m.column}"
        c, found = self.cols.get(m.column), self.rows.get(m.column, [])
        if not c or not any(differences(c, e) == m.differences for e in found):
            self.faults.append(f"{said} has no such difference: {shown(m.differences)}")
        for name, mode, words in re.findall(QUOTED, m.reason):
            quoted = f"{name} ({mode})"
            if quoted not in self.cols:
                self.faults.append(f"{said} quotes {quoted}, which is no column of the manual")
                continue
            for held in (self.cols[quoted], *self.rows[quoted]):
                if words not in (held.opcode, code(held), counted(held)):
                    self.faults.append(f"{said} quotes {quoted} {words}; {held.where} has {counted(held)}")


def main():
    arguments = sys.argv[1:]
    verbose = arguments[:1] == ["-v"]
    if len(arguments) != 1 + verbose:
        sys.exit("usage: " + __doc__.split(":")[0])
    try:
        with open(arguments[-1], encoding="utf-8") as f:
            cols = list(columns(f.read()))
    except (OSError, UnicodeDecodeError, Unread) as e:
        sys.exit(f"FAILED: {e}")
    entries = [entry_of(r) for r in rows()]
    c = Comparison(cols, entries)
    for line in (c.agree if verbose else []) + c.explained:
        print(line)
    for line in c.unexplained + c.faults:
        print(f"FAILED: {line}")
    second = sum(e.name in ALIASES for e in cols)
    print(f"{len(entries)} rows; {len(cols)} columns, {second} under a second name; {len(c.faults)} other failures")
    print(f"{len(c.agree)} columns agree, {len(c.explained)} differ with a reason, {len(c.unexplained)} differ without")
    sys.exit(1 if c.unexplained or c.faults else 0)


if __name__ == "__main__":
    main()
