"""A second reading of S-record files, to document 02, a, without our code: for each file of a folder a line with its
name and `good`, or the number and place of its refusal. START LENGTH FOLDER; start and length are the code window's."""
import re
import sys
from pathlib import Path

RECORD = re.compile(rb'S([0159])((?:[0-9A-Fa-f]{2})*)\r?\n')


def cause(line, s1, given, window):
    """Of a line that is no line after S9: its cause, or 0; what an S1 gives is added to the given addresses."""
    found = RECORD.fullmatch(line)
    if not found:
        return 25
    kind, record = found[1], bytes.fromhex(found[2].decode())
    if len(record) < 4 or record[0] != len(record) - 1:
        return 25
    address, data = record[1] * 256 + record[2], record[3:-1]
    if kind in (b'5', b'9') and data or kind == b'5' and address != s1:
        return 25
    if 255 - sum(record[:-1]) % 256 != record[-1]:
        return 26
    for a in range(address, address + len(data)) if kind == b'1' else ():
        if a not in window or a in given:
            return 27
        given.add(a)
    return 0


def reading(text, window):
    """good, or number and place."""
    lines = re.findall(rb'[^\n]*\n|[^\n]+', text)
    given, s1 = set(), 0
    for number, line in enumerate(lines, 1):
        after_end = number > 1 and lines[number - 2].startswith(b'S9')
        if found := 25 if after_end else cause(line, s1, given, window):
            return f'{found} {number}'
        s1 += line.startswith(b'S1')
    if not lines or not lines[-1].startswith(b'S9'):
        return f'25 {len(lines) + 1}'
    return 'good' if len(given) == len(window) else '27 0'


start, length = int(sys.argv[1]), int(sys.argv[2])
for path in sorted(Path(sys.argv[3]).iterdir()):
    print(path.name, reading(path.read_bytes(), range(start, start + length)))
