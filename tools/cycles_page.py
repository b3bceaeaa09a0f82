#!/usr/bin/env python3
"""cycles_page.py [--check]: writes docs/CYCLES.md, a head and the rows of crates/cycles/stdout sorted by name and mode.

Run it after crates/cycles/stdout has changed. With --check nothing is written, and the exit status is 1 where the page
would change.
"""
import sys
from pathlib import Path

ROOT = Path(__file__).resolve().parent.parent
ROWS = ROOT / "crates/cycles/stdout"
PAGE = ROOT / "docs/CYCLES.md"
COLUMNS = ["mnemonic", "mode", "operand", "bytes", "length", "cycles", "rules"]
# In which order an instruction's modes stand.
MODES = ["inherent", "immediate", "direct", "extended", "indexed X", "indexed Y", "relative"]

HEAD = """# Cycles: every instruction with its length, its cycles and what the rules make of it

A routine's costs are counted from this page alone. It is made from the table by which routines are judged:
`python3 tools/cycles_page.py` writes it, and a test compares it.

## The columns

- **mnemonic**: the instruction's name. Assemblers also know `LSL` for `ASL`, `LSLA` for `ASLA`, `LSLB` for `ASLB`,
  `LSLD` for `ASLD`, `BHS` for `BCC` and `BLO` for `BCS`; GNU's knows `CMPD` for `CPD`, `CMPX` for `CPX` and `CMPY` for
  `CPY` too.
- **mode**: where the operand is. *Inherent*: there is none. *Immediate*: in the instruction. *Direct*: at an address
  from $0000 to $00FF, of which the instruction has the low byte. *Extended*: at any address. *Indexed*: at X or Y and
  an offset from 0 to 255. *Relative*: an instruction to go to. *Mask*: a byte whose bits at 1 are those that are meant.
  *Branch*: an instruction to go to, after operand and mask.
- **operand**: how it is written for GNU's assembler: `dd` is a direct address, `hhll` an extended one, `ii` a byte,
  `jjkk` a word, `ff` an offset, `mm` a mask, `target` the label to go to.
- **bytes**: in hexadecimal, the opcode first. Small letters stand for the operand: `dd`, `ii`, `ff` and `mm` as above,
  `hh ll` and `jj kk` high byte first, `rr` the target's distance from the end of the instruction, -128 to 127.
- **length**: in bytes.
- **cycles**: of the E clock: the same whatever the data, and for a branch the same whether it is taken or not. `WAI`,
  `STOP` and `TEST` wait: no routine may use them, and the number that stands here counts for nothing.
- **rules**: what the rules make of it, below.

What has no row is no instruction (cause 10). Forms that one may look for in vain:

- `ASL`, `ASR`, `CLR`, `COM`, `DEC`, `INC`, `JMP`, `LSR`, `NEG`, `ROL`, `ROR` and `TST` have no direct form: of
  `clr *dd` GNU's assembler silently makes the extended one, a byte more.
- `BCLR`, `BRCLR`, `BRSET` and `BSET` have no extended form: their byte is direct or indexed.

Count from what was assembled, not from the source: an address without `*` is extended, and a branch that does not
reach silently becomes a jump, or the opposite branch and a jump (`BSR` becomes `JSR`), unless the assembler is told
`-S`; of `BRSET` and `BRCLR` it is always an error. `m68hc11-objdump -d` lists what was made.

## What the rules make of it

The words of the last column, what each asks of the ticket, and the cause with which a routine is refused where it is
not so (`docs/REFUSALS.md`). `docs/WORKSHOPS.md`, section 4, counts costs, depths and needs by these rules.

| rules | what it asks | cause |
|---|---|---|
| goes on | the instruction after it is marked | 14 |
| | depth there = depth here + pushed - pulled | 15 |
| | cost here is at least cycles + cost there | 16 |
| | need here is at least need there + pushed - pulled | 17 |
| pushes N | N bytes count as pushed | 15, 17 |
| pulls N | N bytes count as pulled, and the depth here is at least N | 13, 15, 17 |
| writes N | the N bytes from the operand's address on lie in the data window | 12 |
| jumps | as one that goes on, with the target in place of the instruction after it | 14 to 17 |
| branches | as one that goes on, for the instruction after it and for the target | 14 to 17 |
| calls | the target and the instruction after the call are marked | 14 |
| | depth at the target is 0, and after the call the same as here | 15 |
| | cost here is at least cycles + cost at the target + cost after the call | 16 |
| | need here is at least 2 + need at the target, and at least need after the call | 17 |
| returns | depth here is 0 | 13 |
| | cost here is at least its cycles | 16 |
| kept out | no routine may use it | 11 |

`DES` counts as a push of one byte and `INS` as a pull. A read asks nothing: a routine may read anywhere, through X and
Y too. `BRA` always goes to its target, and so jumps; `BRN` never does, and goes on.

## The instructions

"""


def cells(row):
    return [cell.strip() for cell in row.strip().strip("|").split("|")]


def order(row):
    """By name, then by mode."""
    mnemonic, mode = row[:2]
    return mnemonic, MODES.index(mode.split(",")[0])


def table(rows):
    """In Markdown, with columns as wide as their widest cell, for those who read the file as it is."""
    widths = [max(map(len, column)) for column in zip(COLUMNS, *rows)]
    line = lambda row: "| " + " | ".join(cell.ljust(width) for cell, width in zip(row, widths)) + " |\n"
    return line(COLUMNS) + "|" + "---|" * len(COLUMNS) + "\n" + "".join(map(line, rows))


def page():
    return HEAD + table(sorted(map(cells, ROWS.read_text().splitlines()), key=order))


def main(arguments):
    if arguments == ["--check"]:
        return 0 if PAGE.is_file() and PAGE.read_text() == page() else 1
    if arguments:
        print("usage: cycles_page.py [--check]", file=sys.stderr)
        return 2
    PAGE.write_text(page())
    return 0


if __name__ == "__main__":
    sys.exit(main(sys.argv[1:]))
