#!/usr/bin/env python3
"""merge.py STATES GNU MAME VECTORS: compares the two simulators' answers field by field and writes the vectors.

A field's expected value is what both answer, or what one answers where the other's is left out (faults.py), or the
manual's where both are. Any other disagreement is an error that is shown. Each vector's first number says which
simulators gave its whole expected answer but for the lowest SP: 1 GNU, 2 MAME, 3 both, 0 none (the fields come from
different sources). The vector's format is in docs/SIMULATORS.md.

No simulator has the lowest SP. The one handed in is chosen here (handed_in), and the one expected is the smaller of it
and the expected SP, by document 02's rule in b.
"""
import sys
from collections import Counter, defaultdict

from faults import FAULTS, HALTS, MANUAL

FLAGS = "SXHINZVC"
WORDS = {"IX": 2, "IY": 4, "SP": 6, "PC": 8}
FIELDS = ["A", "B", *WORDS, *FLAGS, "cycles", "writes"]
BACKGROUND = 0x3C
NUMBER = {"GNU": 1, "MAME": 2}
ORDER = ["MAME", "GNU"]  # MAME first: its writes are in the processor's order
PLACES, LEAST = 305, 100


def registers(text):
    raw = bytes.fromhex(text)
    assert len(raw) == 11
    fields = {"A": raw[0], "B": raw[1]}
    fields.update({name: 256 * raw[i] + raw[i + 1] for name, i in WORDS.items()})
    fields.update({name: raw[10] >> (7 - i) & 1 for i, name in enumerate(FLAGS)})
    return fields


def register_text(fields):
    flags = sum(fields[name] << (7 - i) for i, name in enumerate(FLAGS))
    return "%02X%02X%04X%04X%04X%04X%02X%04X" % (*(fields[r] for r in ("A", "B", *WORDS)), flags, fields["lowest"])


def cells(words):
    return [(int(w[:4], 16), int(w[4:], 16)) for w in words]


def cell_text(pairs):
    return "".join(f" {address:04X}{value:02X}" for address, value in pairs)


def answer(line):
    """A driver's line as fields, or None where the simulator gave no answer."""
    words = line.split()
    if words == ["HALT"]:
        return None
    fields = registers(words[0])
    fields["cycles"], fields["writes"] = int(words[1]), cells(words[3:])
    assert len(fields["writes"]) == int(words[2], 16)
    return fields


def same(field, one, other):
    """Writes are compared as what memory holds afterwards: GNU writes a pushed word at once, so its order means
    nothing."""
    return sorted(one) == sorted(other) if field == "writes" else one == other


def left_out(simulator, place, before, after, memory):
    """The fields of an answer that are not used, each with the fault that says why."""
    faults = [f for f in FAULTS if f.simulator == simulator and place in f.places and f.says(before, after, memory)]
    return {field: fault for fault in faults for field in fault.fields}


def handed_in(turn, before, after):
    """The lowest SP handed to the state of a turn, the number of states before it at its place: the ends, X for any
    value, and around SP before and SP afterwards. They are nine, since states.py tries SP's edges by powers of two."""
    around = [fields["SP"] + k for fields in (before, after) for k in (-1, 0, 1)]
    values = [0x0000, 0xFFFF, before["IX"], *around]
    return values[turn % len(values)] & 0xFFFF


class Disagreement(Exception):
    """The simulators differ in a way that the list of faults does not explain."""


class Merger:
    def __init__(self):
        self.wrong = Counter()  # states at which a fault's answer differs from the expected one
        self.confirmed = Counter()
        self.by_place = defaultdict(list)

    def answers(self, place, lines):
        """The simulators' answers, without those known to halt."""
        found = {simulator: answer(line) for simulator, line in lines.items()}
        for simulator in [s for s, a in found.items() if a is None]:
            if (simulator, place) not in HALTS:
                raise Disagreement(f"{simulator} gives no answer")
            self.wrong[simulator, "halts"] += 1
            del found[simulator]
        return found

    def expect(self, place, answers, unused):
        """The expected fields, from the fields of the answers that are used."""
        expected = {}
        for field in FIELDS:
            used = [answers[s][field] for s in ORDER if s in answers and field not in unused[s]]
            if not used and (place, field) in MANUAL:
                used = [MANUAL[place, field]]
            if not used:
                raise Disagreement(f"no simulator's {field} is used")
            if not all(same(field, used[0], u) for u in used):
                raise Disagreement(f"the simulators disagree in {field}, which faults.py does not explain")
            expected[field] = used[0]
        return expected

    def count(self, expected, answers, unused):
        """Notes which faults made a difference; answers the number that says who gave the whole expected answer."""
        number = 0
        for simulator, a in answers.items():
            differing = [f for f in FIELDS if not same(f, a[f], expected[f])]
            self.wrong.update({(simulator, unused[simulator][f].name) for f in differing})
            number += 0 if differing else NUMBER[simulator]
        self.confirmed[number] += 1
        return number

    def vector(self, state, lines):
        """One vector's line."""
        words = state.split()
        place, before, listed = int(words[0], 16), registers(words[1]), cells(words[3:])
        bytes_before = dict(listed)
        memory = lambda address: bytes_before.get(address, BACKGROUND)
        try:
            answers = self.answers(place, lines)
            unused = {s: left_out(s, place, before, a, memory) for s, a in answers.items()}
            expected = self.expect(place, answers, unused)
        except Disagreement as e:
            raise SystemExit(f"{e}\n  state {state}" + "".join(f"  {s:5} {line}" for s, line in lines.items()))
        number = self.count(expected, answers, unused)
        before["lowest"] = handed_in(len(self.by_place[place]), before, expected)
        expected["lowest"] = min(before["lowest"], expected["SP"])
        self.by_place[place].append((before, expected))
        writes = expected["writes"]
        return (f"{number:02X} {expected['cycles']:02X} {register_text(before)} {register_text(expected)} "
                f"{len(listed):02X}{cell_text(listed)} {len(writes):02X}{cell_text(writes)}\n")


def check_cover(by_place):
    """That the vectors hold what they are to hold: every place, enough states, all flags, both ways of every
    conditional branch."""
    assert len(by_place) == PLACES, len(by_place)
    for place, states in by_place.items():
        assert len(states) >= LEAST, f"{place:03X}: {len(states)}"
        for half in ("SXHI", "NZVC"):
            assert len({tuple(b[f] for f in half) for b, _ in states}) == 16, f"{place:03X}: flags {half}"
        masked = place & 0xFF in (0x12, 0x13, 0x1E, 0x1F)
        if 0x22 <= place <= 0x2F or masked:
            length = 2 if not masked else 5 if place >= 0x100 else 4
            ways = Counter((e["PC"] - b["PC"]) & 0xFFFF == length for b, e in states)
            assert min(ways[True], ways[False]) >= 20, f"{place:03X}: {ways}"


def check_lowest(by_place):
    """That the lowest SP handed in is above, equal to and below SP afterwards at every place; and that, where SP rises,
    it is often above SP before, so that a rule that looks at SP before is seen."""
    seen = 0
    for place, states in by_place.items():
        sides = Counter((b["lowest"] > e["SP"]) - (b["lowest"] < e["SP"]) for b, e in states)
        assert min(sides[side] for side in (1, 0, -1)) >= 10, f"{place:03X}: {sides}"
        rising = [b["lowest"] > b["SP"] for b, e in states if b["SP"] < e["SP"]]
        assert 3 * sum(rising) >= len(rising), f"{place:03X}: {sum(rising)} of {len(rising)}"
        seen += sum(rising)
    assert seen >= 500, seen


def check_faults(wrong):
    """That every fault of the list was met."""
    missing = [f.name for f in FAULTS if not wrong[f.simulator, f.name]]
    assert not missing, missing


def main():
    states, gnu, mame, vectors = sys.argv[1:]
    merger = Merger()
    with open(states) as s, open(gnu) as g, open(mame) as m:
        lines = [merger.vector(state, {"GNU": a, "MAME": b}) for state, a, b in zip(s, g, m, strict=True)]
    check_cover(merger.by_place)
    check_lowest(merger.by_place)
    check_faults(merger.wrong)
    with open(vectors, "w", newline="\n") as out:
        out.writelines(lines)
    c = merger.confirmed
    print(f"{len(lines)} vectors, {len(merger.by_place)} places")
    print(f"confirmed by both {c[3]}, by GNU alone {c[1]}, by MAME alone {c[2]}, in parts {c[0]}")
    for (simulator, name), times in sorted(merger.wrong.items()):
        print(f"{times:6} states  {simulator:4}  {name}")


if __name__ == "__main__":
    main()
