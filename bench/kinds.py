"""Host instructions by kind: callgrind's count for each address of a program, and the program's listing."""
import re
import subprocess

KINDS = ["stack", "other memory", "indirect jumps", "other jumps", "tests", "moves", "the rest"]


def kind(text):
    """The kind of a host instruction, as objdump writes it."""
    name, _, operands = text.partition(" ")
    if re.match(r"j|call|ret", name):
        return "indirect jumps" if "*" in operands else "other jumps"
    if name in ("push", "pop"):
        return "stack"
    if "(" in operands and not name.startswith(("lea", "nop")):
        return "stack" if "(%rsp)" in operands else "other memory"  # with an index it is a table that stands there
    if re.match(r"cmp|test|set|bt$|bt[lwq]$", name):
        return "tests"
    if re.match(r"mov|cmov|cbw|cwt|xchg", name):
        return "moves"
    return "the rest"


def listing(program):
    """Address to kind."""
    said = subprocess.run(["objdump", "-d", "--no-show-raw-insn", program], capture_output=True, text=True,
                          check=True).stdout
    found = re.findall(r"^ +([0-9a-f]+):\t(.*)$", said, re.MULTILINE)
    return {int(at, 16): kind(re.sub(r"^(?:rep|repz|bnd|notrack|lock) +", "", text)) for at, text in found}


def counts(program, words, out):
    """Callgrind's count for each address of the program itself."""
    subprocess.run(["valgrind", "--tool=callgrind", f"--callgrind-out-file={out}", "--dump-instr=yes",
                    "--compress-pos=no", "--compress-strings=no", program, *words], capture_output=True, check=True)
    seen, own, called = {}, False, False
    with open(out, encoding="utf-8") as f:
        for line in f:
            if line.startswith("ob="):
                own = line.rstrip().endswith("/" + program.rsplit("/", 1)[-1])
            elif line.startswith("calls="):
                called = True  # the next line has what the callee cost
            elif line.startswith("0x"):
                at, _, count = line.split()
                if own and not called:
                    seen[int(at, 16)] = seen.get(int(at, 16), 0) + int(count)
                called = False
    return seen


def by_kind(program, short, long, simulated, out):
    """Host instructions of each kind for each simulated instruction, between two runs."""
    names = listing(program)
    total = dict.fromkeys(KINDS, 0)
    for words, sign in ((long, 1), (short, -1)):
        for at, count in counts(program, words, out).items():
            total[names[at]] += sign * count
    return {k: v / simulated for k, v in total.items()}
