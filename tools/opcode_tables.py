#!/usr/bin/env python3
"""opcode_tables.py [--check]: writes what follows from the rows and from the order of the numbers.

- The manual's name stands behind each row of crates/opcodes/specs/Rows.antt, and with the number behind each action of
  specs/inner/Numbers.antt.
- The three statics of crates/opcodes/src/table.rt are what the rows say, and the actions and modes of
  crates/opcodes/src/numbered.rt are the lists of specs/inner/Numbers.antt, an action with its number and name.
- An arm of crates/dispatch/src/lib.rt that tells an action apart by its number, `67 => .., // SUBA`, has the number of
  the name behind it; every action has one that does not wait.

Run it after a row or the order has changed; a new arm may have any number before. With --check nothing is written, and
the exit status is 1 where something would be. That the code's numbers and statics are right is proved; that the names
are is not.
"""
import re
import sys

sys.dont_write_bytecode = True  # no __pycache__ beside the sources
from rows import CRATE, listed, names, rows

PLACES = 1024
ROWS, NUMBERS, TABLE, NUMBERED = (
    CRATE / f for f in ("specs/Rows.antt", "specs/inner/Numbers.antt", "src/table.rt", "src/numbered.rt")
)
DISPATCH = CRATE.parent / "dispatch/src/lib.rt"
WAITING = {"Wai", "Stop"}
# The enums of an action's operands, by the names that specs/inner/Numbers.antt has for their modules.
MODULES = {"I": "Inherent", "Un": "Unary", "Bi": "Binary", "Acc": "Accumulator", "Ix": "Index", "Wd": "Word"}
# An arm, on one line or on several: its number, and behind it the name.
ARM = re.compile(r"^( {8})(\d+)( => (?:[^\n]*|[^\n]*[({]\n.*?\n {8}[)}]*)(?:,|\}) // )([A-Z][A-Z, ]*)$", re.M | re.S)


def named_rows(text):
    """A row's names behind it."""
    found = iter(rows())

    def named(line):
        row = next(found)
        return f"{line[1]}  -- {names(row.action, row.mode)}"

    return re.sub(r"^(    row .* ∷)(?:  --.*)?$", named, text, flags=re.M)


def named_numbers(text):
    """An action's number and names behind it, on a line of its own."""
    actions = iter(enumerate(listed(text, "all_actions")))

    def named(line):
        number, action = next(actions)
        return f"{line[1]}  -- {number}: {names(action)}"

    head, body, tail = re.fullmatch(r"(.*^all_actions =\n)(.*?)(^    \[\]\n.*)", text, re.M | re.S).groups()
    return head + re.sub(r"^(    .* ∷)(?:  --.*)?$", named, body, flags=re.M) + tail


def lines(entries, a_line):
    """Entries by lines, each with the place of its first one behind it."""
    return "".join(f"    {', '.join(entries[i : i + a_line])}, // 0x{i:03x}\n" for i in range(0, PLACES, a_line))


def with_statics(code, statics):
    """The code, with the length and the entries of its statics."""
    for name, length, text in statics:
        static = rf"(static {name}: \[\w+; )\d+(\] = \[\n).*?(^\];)"
        code, found = re.subn(static, lambda m: f"{m[1]}{length}{m[2]}{text}{m[3]}", code, flags=re.M | re.S)
        assert found == 1, name
    return code


def with_tables(code, actions, modes):
    """The code of the tables, with the statics that the rows say. TEST has no entry in the list of the actions: it is
    what every number past it stands for."""
    costs, action_at, mode_at = [0] * PLACES, [0] * PLACES, [0] * PLACES
    for row in rows():
        costs[row.place] = 256 * row.length + row.cycles
        action_at[row.place] = [*actions, "Test"].index(row.action)
        mode_at[row.place] = modes.index("Mode." + row.mode)
    return with_statics(code, [
        ("COSTS", PLACES, lines([f"0x{n:04x}" for n in costs], 8)),
        ("ACTIONS", PLACES, lines([str(n) for n in action_at], 16)),
        ("MODES", PLACES, lines([str(n) for n in mode_at], 16)),
    ])


def in_code(action):
    """An action as the code has it: `Action::Binary(Binary::Sub, Accumulator::A)`."""
    kind, *operands = action.split()
    written = ", ".join(MODULES[o.split(".")[0]] + "::" + o.split(".")[1] if "." in o else o for o in operands)
    return f"Action::{kind}" + (f"({written})" if operands else "")


def with_lists(code, actions, modes):
    """The code of the numbers, with the lists of the specification."""
    listed_actions = [f"    {in_code(a)}, // {n}: {names(a)}\n" for n, a in enumerate(actions)]
    listed_modes = [f"    Mode::{m.removeprefix('Mode.')},\n" for m in modes]
    return with_statics(code, [
        ("ALL_ACTIONS", len(actions), "".join(listed_actions)),
        ("ALL_MODES", len(modes), "".join(listed_modes)),
    ])


def numbered_arms(code, actions, file):
    """The code with each arm's number by its name; each of the actions has one arm."""
    number = {names(action): n for n, action in actions.items()}
    met = sorted(arm[4] for arm in ARM.finditer(code))
    if met != sorted(number):
        sys.exit(f"{file}: no arm or two for {sorted(set(number) ^ set(met)) or [m for m in met if met.count(m) > 1]}")
    return ARM.sub(lambda arm: f"{arm[1]}{number[arm[4]]}{arm[3]}{arm[4]}", code)


def main():
    if sys.argv[1:] not in ([], ["--check"]):
        sys.exit("usage: opcode_tables.py [--check]")
    old = {file: file.read_text(encoding="utf-8") for file in (ROWS, NUMBERS, TABLE, NUMBERED, DISPATCH)}
    actions, modes = listed(old[NUMBERS], "all_actions"), listed(old[NUMBERS], "all_modes")
    numbers = dict(enumerate(actions))
    new = {
        ROWS: named_rows(old[ROWS]),
        NUMBERS: named_numbers(old[NUMBERS]),
        TABLE: with_tables(old[TABLE], actions, modes),
        NUMBERED: with_lists(old[NUMBERED], actions, modes),
        DISPATCH: numbered_arms(old[DISPATCH], {n: a for n, a in numbers.items() if a not in WAITING}, DISPATCH),
    }
    changed = [file for file in old if new[file] != old[file]]
    for file in changed:
        print(f"{'not as the rows and numbers say' if sys.argv[1:] else 'written'}: {file.relative_to(CRATE.parent)}")
        if not sys.argv[1:]:
            file.write_text(new[file], encoding="utf-8")
    sys.exit(1 if changed and sys.argv[1:] else 0)


if __name__ == "__main__":
    main()
