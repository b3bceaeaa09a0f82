"""The rows of crates/opcodes/specs/Rows.antt and the manual's names of their actions, for the scripts here."""
import re
from collections import namedtuple
from pathlib import Path

CRATE = Path(__file__).resolve().parent.parent / "crates/opcodes"

# The mnemonic of an action that has operands: the stem with their names. Others have their own name.
STEMS = {
    "Inherent": "{}", "Unary": "{}{}", "Binary": "{}{}", "Modify": "{}", "TstAccumulator": "TST{}", "TstMemory": "TST",
    "LoadWord": "LD{}", "StoreByte": "STA{}", "StoreWord": "ST{}", "CompareWord": "CP{}",
    "PushByte": "PSH{}", "PushWord": "PSH{}", "PullByte": "PUL{}", "PullWord": "PUL{}", "SetStack": "T{}S",
}
BRANCHES = "BRA BRN BHI BLS BCC BCS BNE BEQ BVC BVS BPL BMI BGE BLT BGT BLE".split()
# Second names. The manual says of ASL, ASLD, BCC and BCS that they are the same as LSL, LSLD, BHS and BLO.
ALIASES = {"LSLA": "ASLA", "LSLB": "ASLB", "LSL": "ASL", "LSLD": "ASLD", "BHS": "BCC", "BLO": "BCS"}

# The action is as it stands, without its brackets; the mode is without 'Mode.'; the others are numbers.
Row = namedtuple("Row", "place action mode length cycles")


def read(name):
    """A file of the crate."""
    return (CRATE / name).read_text(encoding="utf-8")


def listed(text, name):
    """The entries of the list `name`, in order, without their brackets."""
    body = re.search(rf"^{name} =\n(.*?)\[\]", text, re.M | re.S).group(1)
    body = re.sub(r"--.*", "", body)
    return [" ".join(entry.split()).strip("()") for entry in body.split("∷")[:-1]]


def rows():
    """Every row, in order."""
    found = []
    for entry in listed(read("specs/Rows.antt"), "rows"):
        words = re.fullmatch(r"row (\w+) (\(.*\)|\w+) Mode\.(\w+) (\d+) (\d+)", entry)
        place, action, mode, length, cycles = words.groups()
        found.append(Row(int(place, 16), action.strip("()"), mode, int(length), int(cycles)))
    return found


def mnemonic(action, mode=None):
    """The manual's name for an action. A call is BSR where its operand is relative, else JSR."""
    kind, *operands = action.split()
    if kind == "Branch":
        return BRANCHES[int(operands[0])]
    if kind == "Call":
        return "BSR" if mode == "Relative" else "JSR"
    return STEMS.get(kind, kind).format(*(o.split(".")[-1] for o in operands)).upper()


def names(action, mode=None):
    """All the manual's names for an action, as comments have them: 'ASLA, LSLA'."""
    first = mnemonic(action, mode)
    second = ["BSR"] if action == "Call" and not mode else [a for a, same in ALIASES.items() if same == first]
    return ", ".join([first, *second])
