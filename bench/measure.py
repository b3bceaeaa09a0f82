#!/usr/bin/env python3
"""Runs the built programs under callgrind and prints the tables of docs/BENCHMARK.md. bench/run builds the programs and
calls this.

GNU's simulator executes a number of instructions and says how many cycles they took; that is the budget of the others.
All must then have spent it to the last cycle and hold the same registers and memory, or no table is printed. The
stepper and the C switch keep the lowest SP too; GNU's simulator has none. They are also compared after each of 100,000
instructions (agree.c)."""
import re
import subprocess
import sys

from kinds import KINDS, by_kind

OUT = sys.argv[1]
MIXES = ["arithmetic", "calls", "memory"]
NOP = "nop"
LENGTHS = [10_000, 100_000, 1_000_000]
OURS, GNU, GNU_BEST = "jugrond", "gnu", "gnu_best"
SWITCHES = ["switch_O2", "switch_O3"]
FLAGS, HALF_CARRY = 10, 0x20
LOWEST_SP, CYCLES = slice(11, 13), slice(13, 17)


def words(mix, number):
    """The arguments of a measured program."""
    return [f"{OUT}/{mix}.bin", str(number), f"{OUT}/state"]


def state(program, mix, number):
    """What a program writes: registers (13 bytes), cycles (4 bytes), memory."""
    subprocess.run([f"{OUT}/{program}", *words(mix, number)], check=True)
    with open(f"{OUT}/state", "rb") as f:
        return bytearray(f.read())


def cycles(s):
    return int.from_bytes(s[CYCLES], "big")


def budget(mix, length):
    """The cycles of so many instructions, where all programs agree on the state. Against GNU two things are left out:
    H, which its additions do not set, and the lowest SP, which it does not keep."""
    gnu = state(GNU, mix, length)
    ours = state(OURS, mix, cycles(gnu))
    same = all(state(p, mix, cycles(gnu)) == ours for p in SWITCHES) and state(GNU_BEST, mix, length) == gnu
    for s in (gnu, ours):
        s[FLAGS] &= ~HALF_CARRY
        s[LOWEST_SP] = b"\0\0"
    if not same or gnu != ours:
        sys.exit(f"{mix}, {length} instructions: the simulators end in different states")
    return cycles(gnu)


BUDGETS = {mix: {n: budget(mix, n) for n in LENGTHS} for mix in [*MIXES, NOP]}


def number(program, mix, length):
    return length if program in (GNU, GNU_BEST) else BUDGETS[mix][length]


def host(program, mix, length, inside=None):
    """Host instructions of a whole program, or inside one function and what it calls."""
    tool = ["valgrind", "--tool=callgrind", f"--callgrind-out-file={OUT}/callgrind.out"]
    tool += [f"--toggle-collect={inside}"] if inside else []
    command = [*tool, f"{OUT}/{program}", *words(mix, number(program, mix, length))]
    said = subprocess.run(command, capture_output=True, text=True, check=True)
    return int(re.search(r"Collected : (\d+)", said.stderr).group(1))


def each(program, mix, inside=None):
    """Host instructions for each simulated one, from the two longer runs: what is done once cancels out."""
    short, long = LENGTHS[1:]
    return (host(program, mix, long, inside) - host(program, mix, short, inside)) / (long - short)


def table(head, rows):
    for line in (head, ["---"] + ["--:"] * (len(head) - 1), *rows):
        print("| " + " | ".join(line) + " |")
    print()


def cost_tables():
    costs, ratios = [], []
    for mix in [*MIXES, NOP]:
        name = "NOP alone" if mix == NOP else mix
        ours, step, best = (each(p, mix) for p in (OURS, GNU, GNU_BEST))
        alone = each(GNU, mix, inside="cpu_interp_m6811")
        switches = [each(p, mix) for p in SWITCHES]
        costs.append([name, *(f"{x:.1f}" for x in (ours, step, alone, best, *switches))])
        ratios.append([name, *(f"{ours / x:.2f}" for x in (step, alone, best, min(switches)))])
    gnus = ["GNU", "GNU, interpreter alone", "GNU -O3 -flto"]
    table(["host instructions for each simulated one", "Jugrond", *gnus, "C switch -O2", "C switch -O3"], costs)
    table(["Jugrond's against", *gnus, "the better C switch"], ratios)


def growth_table():
    rows = []
    for mix in MIXES:
        totals = [host(OURS, mix, n, inside="jugrond_run") for n in LENGTHS]
        rows.append([mix, *(f"{t:,} ({t / n:.2f} each)" for t, n in zip(totals, LENGTHS))])
    table(["host instructions in one call of jugrond_run", *(f"{n:,} simulated" for n in LENGTHS)], rows)


def kind_table():
    rows = []
    short, long = LENGTHS[:2]
    for mix in MIXES:
        for program, name in ((OURS, "Jugrond"), ("switch_O3", "C switch -O3")):
            runs = [words(mix, BUDGETS[mix][n]) for n in (short, long)]
            kinds = by_kind(f"{OUT}/{program}", *runs, long - short, f"{OUT}/callgrind.out")
            rows.append([f"{mix}, {name}", *(f"{kinds[k]:.1f}" for k in KINDS)])
    table(["host instructions by kind, for each simulated one", *KINDS], rows)


for routine in BUDGETS:
    state("agree", routine, LENGTHS[1])
cost_tables()
growth_table()
kind_table()
