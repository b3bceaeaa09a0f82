"""page.py WORK: holds docs/CYCLES.md to what was made apart from it. WORK is a scratch folder with what peer.c prints.

- The page is what tools/cycles_page.py writes.
- Each row of crates/opcodes/specs/Rows.antt has one row, with its mnemonic, mode, length and cycles, and as many bytes.
- Length, cycles and what the rules make of it are as the second verdict has them (bench/peer_instructions.h).
- GNU's assembler makes a row's bytes of its mnemonic and operand, and of the other names that the page gives.
- The forms that the page says are not there are those that the rows lack.

Then faults are put into the page, and each must be told. Last line: 'N passed, M failed'; the exit status tells.
"""
import re
import shutil
import subprocess
import sys
from collections import Counter, namedtuple
from pathlib import Path

sys.dont_write_bytecode = True
ROOT = Path(__file__).resolve().parents[2]
sys.path[:0] = [str(ROOT / 'tools'), str(ROOT / 'tests/laws')]
from laws import told
from rows import mnemonic, rows

PAGE = ROOT / 'docs/CYCLES.md'
MAPS = {'18': 1, '1A': 2, 'CD': 3}
MODES = {
    'Inherent': 'inherent', 'Immediate8': 'immediate', 'Immediate16': 'immediate', 'Direct': 'direct',
    'Extended': 'extended', 'IndexedX': 'indexed X', 'IndexedY': 'indexed Y', 'Relative': 'relative',
    'MaskDirect': 'direct, mask', 'MaskX': 'indexed X, mask', 'MaskY': 'indexed Y, mask',
    'MaskBranchDirect': 'direct, mask, branch', 'MaskBranchX': 'indexed X, mask, branch',
    'MaskBranchY': 'indexed Y, mask, branch',
}
# What is assembled where the page has place-holders; 'rr' goes to the next slot.
VALUES = {'dd': '12', 'hh': '34', 'll': '56', 'ii': '78', 'jj': '9A', 'kk': 'BC', 'ff': 'DE', 'mm': 'F0'}
SLOT = 8  # bytes for an instruction to be assembled in

Line = namedtuple('Line', 'mnemonic mode operand bytes length cycles rules')
# in the page what becomes what, and what must be said
FAULTS = [
    ('other cycles', r'(\| MUL .*\| )10( )', r'\g<1>11\2', 'MUL inherent: the row has cycles'),
    ('another length', r'(\| LDAA +\| direct .*\| )2( +\| 3)', r'\g<1>3\2', 'LDAA direct: the row has length'),
    ('another mode', r'(\| LDAA +\| )direct  ', r'\1extended', 'LDAA direct: the row has mode'),
    ('another name', r'\| ABA ', '| ABX ', 'ABA inherent: the row has mnemonic'),
    ('a row that is not there', r'\| RTS .*\n', '', 'RTS inherent: 0 rows'),
    ('a row twice', r'(\| RTS .*\n)', r'\1\1', 'RTS inherent: 2 rows'),
    ('a row of no instruction', r'(\| RTS .*\n)', r'\1| RTS | inherent | | 41 | 1 | 5 | returns |\n',
     'as many rows: 309 of 308'),
    ('a byte too many', r'( 9B dd)   ', r'\1 mm', 'ADDA direct: 3 bytes'),
    ('another word', r'(\| BRN .*)goes on ', r'\1branches', 'BRN relative: the second verdict'),
    ('another operand', r'(\| LDAB +\| indexed X +\| `ff,)X', r'\1Y', 'LDAB indexed X: assembled'),
    ('a wrong second name', '`BHS` for `BCC`', '`BHS` for `BCS`', 'BHS, for BCS relative: assembled'),
    ('a form that is there', '`ASR`, `CLR`', '`ASR`, `CLRA`, `CLR`', 'no direct form'),
    ('a form that is not there', 'have no extended form', 'and `CLR` have no extended form', 'no extended form'),
]


def lines(text):
    """The rows of the page."""
    table = text[text.index('## The instructions'):].split('\n')[4:]
    return [Line(*(cell.strip() for cell in line.strip('|').split('|'))) for line in table if line]


def place(line):
    """In the opcode maps: 256 for each map, then the opcode."""
    first, *rest = line.bytes.split()
    return MAPS[first] * 256 + int(rest[0], 16) if first in MAPS else int(first, 16)


def named(words):
    return re.findall(r'`(\w+)`', words)


def second_names(text):
    """Each other name that the page gives, with the mnemonic that it is for."""
    return re.findall(r'`([A-Z]+)` for\s+`([A-Z]+)`', text)


def against_rows(found):
    """One line of the page for each row, and the same in both."""
    count = Counter(map(place, found))
    by_place = {place(line): line for line in found}
    for row in rows():
        name, mode = mnemonic(row.action, row.mode), MODES[row.mode]
        wrong = None if count[row.place] == 1 else f'{count[row.place]} rows'
        if not wrong:
            line = by_place[row.place]
            for field, value in ('mnemonic', name), ('mode', mode), ('length', row.length), ('cycles', row.cycles):
                if getattr(line, field) != str(value):
                    wrong = f'the row has {field} {value}, the page {getattr(line, field)}'
            if not wrong and len(line.bytes.split()) != row.length:
                wrong = f'{len(line.bytes.split())} bytes of {row.length}'
        yield f'{name} {mode}', wrong
    yield 'as many rows', None if len(found) == len(rows()) else f'{len(found)} of {len(rows())}'


def against_peer(found, work):
    peer = dict(line.split(' ', 1) for line in (work / 'peer.txt').read_text().splitlines())
    for line in found:
        said = peer.pop(str(place(line)), 'nothing')
        same = said == f'{line.length} {line.cycles} {line.rules}'
        yield f'{line.mnemonic} {line.mode}', None if same else f'the second verdict has {said}'
    yield 'the instructions of the second verdict', f'{len(peer)} are not on the page' if peer else None


def expected(line):
    values = VALUES | {'rr': f'{SLOT - len(line.bytes.split()):02X}'}
    return bytes.fromhex(re.sub('[a-z]{2}', lambda letters: values[letters[0]], line.bytes))


def source(name, operand, number):
    values = re.sub('(?:hh|jj|dd|ii|ff|mm)(?:ll|kk)?', lambda h: '0x' + re.sub('..', lambda b: VALUES[b[0]], h[0]),
                    operand.strip('`').replace('target', f'slot{number + 1}'))
    return f' .org {number * SLOT}, 0xff\nslot{number}: {name} {values}\n'


def tried(text, found):
    """What is assembled: what it is called, its name, its operand and the bytes that are to come of it."""
    for line in found:
        yield f'{line.mnemonic} {line.mode}', line.mnemonic, line.operand, expected(line)
    for other, name in second_names(text):
        for line in found:
            if line.mnemonic == name:
                yield f'{other}, for {name} {line.mode}', other, line.operand, expected(line)
    for name in without(text, 'direct'):
        for line in found:
            if (line.mnemonic, line.mode) == (name, 'extended'):
                yield f'{name} of a direct address', name, '`*dd`', expected(line)[:1] + b'\0\x12'


def assembled(work):
    """The bytes of text.s; none where a command fails, which then says why."""
    commands = ('as -o text.o text.s', 'ld -Ttext 0x8000 -e 0x8000 -o text text.o',
                'objcopy -O binary -j .text text image')
    if any(subprocess.run(f'm68hc11-{command}', shell=True, cwd=work).returncode for command in commands):
        return b''
    return (work / 'image').read_bytes()


def against_assembler(text, found, work):
    wanted = list(tried(text, found))
    parts = [source(name, operand, number) for number, (_, name, operand, _) in enumerate(wanted)]
    (work / 'text.s').write_text(''.join(parts) + f' .org {len(wanted) * SLOT}, 0xff\nslot{len(wanted)}:\n')
    image = assembled(work)
    for number, (what, _, _, right) in enumerate(wanted):
        slot = image[number * SLOT:][:SLOT]
        yield what, None if slot == right.ljust(SLOT, b'\xff') else f'assembled it is {slot.hex(" ") or "nothing"}'


def without(text, mode):
    """The mnemonics that the page says have no form in a mode."""
    return named(re.search(rf'^- ([^-]*) have no {mode} form', text, re.M)[1])


def absent_forms(text):
    forms = {}
    for row in rows():
        forms.setdefault(mnemonic(row.action, row.mode), set()).add(MODES[row.mode].split(',')[0])
    for mode, beside in ('direct', 'extended'), ('extended', 'direct'):
        right = {name for name, modes in forms.items() if beside in modes and mode not in modes}
        differ = right ^ set(without(text, mode))
        yield f'no {mode} form', f'the rows differ in {", ".join(sorted(differ))}' if differ else None


def wrongs(text, work):
    found = lines(text)
    results = [*against_rows(found), *against_peer(found, work), *absent_forms(text)]
    if shutil.which('m68hc11-as'):
        results += against_assembler(text, found, work)
    return results


def seen(text, work, old, new, said):
    """Whether a fault that is put into the page is told."""
    changed, times = re.subn(old, new, text)
    if times != 1:
        return f'it stands {times} times in the page'
    return None if any(wrong and said in f'{what}: {wrong}' for what, wrong in wrongs(changed, work)) else 'not seen'


def main(work):
    text = PAGE.read_text()
    written = subprocess.run([sys.executable, ROOT / 'tools/cycles_page.py', '--check']).returncode
    results = [('the page', 'not as tools/cycles_page.py writes it' if written else None), *wrongs(text, work)]
    if not shutil.which('m68hc11-as'):
        print('NOT TRIED: the page given to GNU\'s assembler, for want of binutils-m68hc1x')
    elif not any(wrong for _, wrong in results):
        results += [(f'fault: {name}', seen(text, work, *fault)) for name, *fault in FAULTS]
    return told(results)


sys.exit(main(Path(sys.argv[1])))
