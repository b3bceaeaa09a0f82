"""The columns of the manual's cycle tables, from a text of Appendix A of Motorola's M68HC11 Reference Manual.

A table's first line starts with 'Cycle' and names its columns; its second has Addr, Data and R/W for each of them; then
comes a line for each cycle, and an empty line after the last. There are tabs between the cells.
"""
import re
from collections import namedtuple
from itertools import takewhile

# What a column says, all of it as text; operands are the letters of the manual's list (A.2, H).
Entry = namedtuple("Entry", "name mode opcode operands length cycles where")

HEAD = r"([A-Z]+) ?\((INH|IMM|DIR|EXT|REL|IND,X|IND,Y)\)"


class Unread(Exception):
    """The manual's text has a table of another form."""


def tables(text):
    """Each cycle table: the number of its first line, and its lines as cells."""
    lines = text.split("\n")
    for i, line in enumerate(lines):
        if line.startswith("Cycle\t"):
            yield i + 1, [cells.split("\t") for cells in takewhile(bool, lines[i:])]


def numbers(label):
    """The first and last cycle of a line: '3' or '3-41'."""
    first, _, last = label.replace("–", "-").partition("-")
    return first, last or first


def column(head, where, lines):
    """A column's entry from its lines: the cycle, the address and the data of each."""
    found = re.fullmatch(HEAD, head)
    if not found:
        raise Unread(f"{where}: no column's head: {head}")
    due, last, code = 1, "", []
    for cycle, address, data in lines:
        first, last = numbers(cycle)
        if first != str(due):
            raise Unread(f"{where}, {head}: cycle {due} is missing")
        due = int(last) + 1 if last.isdigit() else None
        if re.fullmatch(r"OP(\+\d)?", address) and data != "—":
            if address != ("OP" if not code else f"OP+{len(code)}"):
                raise Unread(f"{where}, {head}: {address} is not the next byte")
            code.append(data)
    opcode, operands = re.fullmatch(r"((?: [0-9A-F]{2})*)(.*)", "".join(" " + c for c in code)).groups()
    return Entry(*found.groups(), opcode.strip(), operands.strip(), str(len(code)), last, where)


def columns(text):
    """An entry for each column of each table."""
    for number, (heads, titles, *lines) in tables(text):
        where, heads = f"line {number}", heads[1::3]
        if titles[1::3] != ["Addr"] * len(heads):
            raise Unread(f"{where}: the next line does not have Addr, Data and R/W for each column")
        for i, head in enumerate(heads):
            cells = [(line[0], *(line[1:] + [""] * 3 * len(heads))[3 * i : 3 * i + 2]) for line in lines]
            yield column(head, where, [c for c in cells if any(c[1:])])
