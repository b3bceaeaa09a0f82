"""Holds the pages for users to what they say.

- docs/WORKSHOPS.md, docs/MONITOR.md: their indented blocks are run as they stand there, in order, from the
  repository's root, with an empty home. What follows a block says what it prints: 'prints `LINE`', or 'prints' alone
  on its line and the whole output in the next block, or 'prints, ..,' and some lines of it. In WORKSHOPS fenced blocks
  with marks or windows, up to the mistakes, quote examples/ramp/ramp.s.
- docs/TICKET.md: the bytes of routine P are those of examples/p/p.tkt, each read aloud with its own numbers; the table
  of commands is that of crates/commands/specs/Rows.antt.
  What is judged there is judged by the checking program, PRESS in the environment.
- No page for users names the papers, which its readers do not have.
"""
import os
import pathlib
import re
import shutil
import subprocess
import sys
import tempfile

ROOT = pathlib.Path(__file__).resolve().parents[2]
PAGES = ['docs/WORKSHOPS.md', 'docs/TICKET.md', 'docs/CYCLES.md', 'docs/REFUSALS.md', 'docs/MONITOR.md',
         'examples/README.md', 'include/jugrond.h']
PAPERS = re.compile(r'document\s+0[0-9]|the\s+specification|the\s+manual\b|the\s+papers|reference\s+manual', re.I)
ASSEMBLER = 'apt-get install -y binutils-m68hc1x'

passed = failed = 0


def same(name, expected, found):
    global passed, failed
    if expected == found:
        passed += 1
    else:
        failed += 1
        print(f'FAILED: {name}: expected {expected!r}, found {found!r}')


def blocks(page):
    """The page's parts in order: ('text', lines), ('indented', lines) or ('fenced', lines), with their first line."""
    kind, part, start = 'text', [], 1
    for number, line in enumerate(page.split('\n'), 1):
        if line.startswith('```'):
            if part:
                yield kind, part, start
            kind, part, start = ('text' if kind == 'fenced' else 'fenced'), [], number + 1
        elif kind == 'fenced':
            part.append(line)
        else:
            now = 'indented' if line.startswith('    ') else 'text'
            if not line:
                now = 'blank'
            if now != kind:
                if part:
                    yield kind, part, start
                kind, part, start = now, [], number
            if now != 'blank':
                part.append(line[4:] if now == 'indented' else line)
    if part:
        yield kind, part, start


def follows(text):
    """What a paragraph after a block says of its output: the whole of it, some lines of it, one line, or nothing."""
    line = re.match(r'prints `([^`]+)`', text[0])
    if line:
        return 'line', line[1]
    if text == ['prints']:
        return 'whole', None
    return ('some', None) if re.fullmatch(r'prints, .*,', text[0]) and len(text) == 1 else (None, None)


def run(command, home):
    done = subprocess.run(['sh', '-euc', command], cwd=ROOT, capture_output=True, text=True, check=False,
                          env={**os.environ, 'HOME': str(home), 'LC_ALL': 'C'})
    return done.returncode, done.stdout.replace(str(home), '/home/you'), done.stderr


def status_of(output):
    """The status that a command ends with, by what it prints; the example monitor has 1 where a tick was spent."""
    return {'REFUSE': 1, 'FILE': 2}.get(output.split(' ')[0], 1 if ': spent after ' in output else 0)


def commands(name, least, home):
    """Runs the commands of a page, at least so many, and compares what the page says that they print."""
    parts = list(blocks((ROOT / name).read_text()))
    output, tried, at = None, 0, 0
    while at < len(parts):
        kind, lines, number = parts[at]
        at += 1
        where = f'{name}, line {number}'
        if kind == 'text' and output is not None:
            how, line = follows(lines)
            if how == 'line':
                same(f'{where}: prints', line + '\n', output)
            elif how and at < len(parts):
                said = '\n'.join(parts[at][1]) + '\n'
                at += 1
                same(f'{where}: prints', said, output if how == 'whole' or said not in output else said)
            output = None
        elif kind == 'indented' and lines != [ASSEMBLER]:
            status, output, errors = run('\n'.join(lines), home)
            same(f'{where}: {lines[-1]}: status', status_of(output), status)
            if status != status_of(output):
                print(errors)
            tried += 1
    same(f'{name}: commands to run', True, tried >= least)


def quoted(page, source):
    """The lines of the source that a page shows: those before the mistakes, which are of other sources too."""
    shown = 0
    for kind, lines, number in blocks(page.split('\n## 7.')[0]):
        if kind == 'fenced' and any(line.startswith('\tmark\t') or line == '\tcode_window' for line in lines):
            shown += 1
            if lines[1:] == ['\tnop']:
                continue  # the inserted one
            for line in filter(None, lines):
                found = any(line == re.sub(r'\t+;.*', '', written) for written in source.split('\n'))
                same(f'docs/WORKSHOPS.md, line {number}: quoted', line, line if found else 'no such line in ramp.s')
    same('docs/WORKSHOPS.md: quotes of the source', True, shown > 2)


def rows(definitions):
    """The table of commands as the definitions have it: by byte, each operand as the page would say it."""
    found = {}
    for byte, row in re.findall(r'-- \$(\d\d).*?\n(.*?)(?=\n +(?:-- \$|∷ \[\]\n))', definitions, re.S):
        first = re.search(r'window = Some ([1-9])', row)
        operands = []
        for width, least, most, other, text in re.findall(
                r'within (\d+) (\d+) (\d+)|any (\d+)|text (\d+)', row):
            if width:
                operands.append((width, f'{int(least):,} to {int(most):,}', '4'))
            elif text:
                operands.append((text, 'each byte $20 to $7E', '4'))
            elif first and not operands:
                operands.append((other, f'from $000{first[1]}', '5'))
            else:
                operands.append((other, 'any', ''))
        found[int(byte)] = operands
    return found


def table(page):
    """The table of commands as the page has it."""
    found, byte = {}, None
    for line in page.split('## The commands')[1].split('*Else*')[0].split('\n'):
        cells = [cell.strip() for cell in line.split('|')[1:-1]]
        if len(cells) != 6 or cells[0] == 'byte' or cells[0].startswith('---'):
            continue
        if cells[0]:
            byte = int(re.fullmatch(r'`\$(\d\d)`', cells[0])[1])
            found[byte] = []
        if cells[2] != 'none':
            found[byte].append(tuple(cells[3:]))
    return found


def numbers(spoken):
    """The numbers that are read aloud, without those inside an instruction's name."""
    bare = re.sub(r'`[^`]*`', '', spoken)
    return [int(hexadecimal, 16) if hexadecimal else int(decimal)
            for hexadecimal, decimal in re.findall(r'\$([0-9A-F]{4})|\b(\d+)\b', bare)]


def aloud(page, ticket, image, commands_table):
    """Routine P on the page: its bytes in order, each command at its offset, and read with its own numbers."""
    part = page.split('## Routine P')[1]
    offset = 0
    for at, shown, spoken in re.findall(r'^\| (\d+) \| `([0-9A-F ]+)` \| (.*) \|$', part, re.M):
        given = bytes.fromhex(shown)
        same(f'docs/TICKET.md: offset {at}', offset, int(at))
        same(f'docs/TICKET.md: bytes at {at}', ticket[offset:offset + len(given)].hex(), given.hex())
        operands, next_byte = [], 1
        for width in (int(operand[0]) for operand in commands_table[given[0]]):
            operands.append(int.from_bytes(given[next_byte:next_byte + width], 'big'))
            next_byte += width
        same(f'docs/TICKET.md: whole command at {at}', len(given), next_byte)
        same(f'docs/TICKET.md: read aloud at {at}', operands, numbers(spoken)[:len(operands)])
        offset += len(given)
    same('docs/TICKET.md: all bytes of P', len(ticket), offset)
    same('docs/TICKET.md: the count of P', f'all {len(ticket)} bytes', re.search(r'all \d+ bytes', part)[0])
    same("docs/TICKET.md: P's image", image.hex(' ').upper(), re.search(r"P's image is `([0-9A-F ]+)`", part)[1])
    changed = bytearray(ticket)
    changed[21] = 0x19
    same('docs/TICKET.md: P', 'ACCEPT 8000 26 5', judged(ticket, image))
    same('docs/TICKET.md: P with limit 25', 'REFUSE 19 32768', judged(changed, image))
    same('docs/TICKET.md: P without its end', 'REFUSE 2 88', judged(ticket[:-1], image))
    for home, answer in ('07 E0 12', 'ACCEPT 8000 26 5'), ('07 80 0A', 'REFUSE 29 22'):
        same(f'docs/TICKET.md: P with {home}', answer,
             judged(ticket[:22] + bytes.fromhex(home) + ticket[22:], image))
        same(f'docs/TICKET.md: {home}', 1, part.count(f'`{home}`'))
    for answer in 'ACCEPT 8000 26 5', 'REFUSE 19 32768', 'REFUSE 2 88', 'REFUSE 29 22':
        same(f'docs/TICKET.md: {answer}', 1, part.count(f'`{answer}`'))


def judged(ticket, image):
    with tempfile.TemporaryDirectory() as folder:
        (pathlib.Path(folder) / 'press.bin').write_bytes(image)
        (pathlib.Path(folder) / 'press.tkt').write_bytes(ticket)
        return subprocess.run([os.environ['PRESS']], cwd=folder, capture_output=True, text=True,
                              check=True).stdout.strip()


def ranges(page, definitions):
    """Each range that the page names anywhere is one of the table's or the printable bytes."""
    known = {of[1] for row in rows(definitions).values() for of in row} | {'$20 to $7E'}
    number = r'(\$?[\dA-F,]*\d[\dA-F,]*)'
    for least, most in re.findall(f'{number} to {number}', page.split('## Routine P')[0]):
        text = f'{least} to {most}'
        if text not in ('9 to 20', '25 to 27'):  # numbers of refusals
            same('docs/TICKET.md: a range', text, text if text in known else f'one of {sorted(known)}')


def sizes(page, definitions):
    """How long tickets can be, as the page has it: worked out from the table's widths and the longest code window."""
    table_rows = rows(definitions)
    size = {byte: 1 + sum(int(operand[0]) for operand in row) for byte, row in table_rows.items()}
    head, marks = sum(size[byte] for byte in (1, 2, 3, 4)), int(table_rows[1][1][1].split(' to ')[1].replace(',', ''))
    order = ' '.join(page.split('## The order')[1].split('## What is refused')[0].split())
    least, plain, named = (head + rest + size[0] for rest in (size[5], marks * size[5], marks * (size[5] + size[6])))
    for said in (f"They are {size[1]}, {size[2]}, {size[3]} and {size[4]} bytes: a ticket's first {head}.",
                 f'`$07`, {size[7]} bytes, or nothing.', f'{size[7]} more than in the same ticket without it',
                 f'The marks, {size[5]} bytes each', f"the mark's address, {size[6]} bytes more",
                 f'shorter than {least} bytes, or {least + size[7]} with a home.', f'at most {marks:,} of them',
                 f'has at most {plain:,} bytes, or {plain + size[7]:,} with a home.',
                 f'it could have {named:,}, or {named + size[7]:,} with a home,'):
        same(f'docs/TICKET.md: {said}', 1, order.count(said))


def main():
    workshops = (ROOT / 'docs/WORKSHOPS.md').read_text()
    ticket = (ROOT / 'docs/TICKET.md').read_text()
    definitions = (ROOT / 'crates/commands/specs/Rows.antt').read_text()
    same('docs/TICKET.md: the table of commands', rows(definitions), table(ticket))
    same('docs/TICKET.md: eight commands', list(range(8)), sorted(table(ticket)))
    ranges(ticket, definitions)
    sizes(ticket, definitions)
    p = ROOT / 'examples/p'
    aloud(ticket, (p / 'p.tkt').read_bytes(), (p / 'p.bin').read_bytes(), rows(definitions))
    quoted(workshops, (ROOT / 'examples/ramp/ramp.s').read_text())
    for name in PAGES + sorted(str(path.relative_to(ROOT)) for path in ROOT.glob('examples/**/*.s')):
        page = ROOT / name
        same(f'{name}: names no paper', [], PAPERS.findall(page.read_text()) if page.exists() else ['it is missing'])
    if shutil.which('m68hc11-as'):
        with tempfile.TemporaryDirectory() as home:
            commands('docs/WORKSHOPS.md', 9, home)
    else:
        print('NOT TRIED: the commands of docs/WORKSHOPS.md, for want of binutils-m68hc1x')
    with tempfile.TemporaryDirectory() as home:
        commands('docs/MONITOR.md', 2, home)
    print(f'{passed} passed, {failed} failed')
    sys.exit(failed > 0)


main()
