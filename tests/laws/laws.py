"""Holds the laws that docs/ASSURANCE.md names: nothing else would miss many of them if they were deleted or weakened.

Each law of its tables "Laws about the definitions" must be a public declaration of the file that the table names; the
file must be part of what is proved (declared by `pub mod` from Lib.antt on, in a crate of crates.txt); and the hash of
the law's statement must be the one in statements.txt. words.py says what a statement is made of. The tables and
statements.txt must name the same laws, a law that the text names must stand in a table, and the sentences "Held by
`tests/laws` alone" must name exactly the laws to which the proof of no function leads. That all is proved is `rt ci`'s
part: it refuses a file that no `mod` line names, and an axiom.

  tests/laws/run              the test; and, on a scratch copy, that each kind of fault is seen.
                              Last line: 'N passed, M failed'; the exit status tells.
  tests/laws/run --words LAW  the words that the law's hash covers.
  tests/laws/run --show       what statements.txt must say for the laws as they are. Whoever renews it by this reads
                              the words of each law whose line changes: the new hash says that somebody did.
"""
import re
import shutil
import sys
import tempfile
from pathlib import Path

sys.dont_write_bytecode = True
from words import Project, short_hash

ROOT = Path(__file__).resolve().parents[2]
PAGE, STATEMENTS = 'docs/ASSURANCE.md', 'tests/laws/statements.txt'
HEADING = '### Laws about the definitions'
ALONE = 'Held by `tests/laws` alone'
QUOTED = re.compile(r'`([^`]+)`')
NAMED = re.compile(r'\b[Ll]aws?\s((?:`[^`]+`(?:,?\sand\s|,\s)?)+)')


def table(text):
    """The laws of the tables, each with its file as the table writes it."""
    laws = []
    for section in text.split(HEADING)[1:]:
        rows = [line for line in re.split(r'\n##', section)[0].split('\n') if line.startswith('| `')]
        for row in rows:
            cells = row.strip().strip('|').split('|')
            names, files = QUOTED.findall(cells[0]), QUOTED.findall(cells[-1].split('statement')[0])
            if len(files) not in (1, len(names)):
                raise SystemExit(f'{len(names)} laws in {len(files)} files: {row}')
            laws += zip(names, files if len(files) > 1 else files * len(names))
    return laws


def stated(text):
    """The laws of statements.txt: each with its file, and its hash."""
    lines = [line.split() for line in text.split('\n') if line and not line.startswith('#')]
    return {(law, file): short for law, file, short in lines}


def declared(root, file):
    """Whether a file is part of what is proved and open to others."""
    crate, area, *parts = file.removesuffix('.antt').split('/')
    if not re.search(rf'^{crate}(?: staticlib)?:', (root / 'crates.txt').read_text(), re.M):
        return False
    above = root / 'crates' / crate / area / 'Lib.antt'
    for i, part in enumerate(parts):
        if not above.is_file() or not re.search(rf'^pub mod {part}$', above.read_text(), re.M):
            return False
        above = root / 'crates' / crate / area / '/'.join(parts[:i]) / (part + '.antt')
    return area in ('proofs', 'specs')


def look_up(root, project, law, file):
    """The law's declaration, or what is wrong with it."""
    path = root / 'crates' / file
    if not path.is_file():
        return None, 'no such file'
    if not declared(root, file):
        return None, 'the file is not declared by pub mod lines in a crate of crates.txt'
    declaration = project.file(path).declarations.get(law)
    if not declaration:
        return None, 'not declared there'
    if 'pub' not in declaration.marks or 'axiom' in declaration.marks or not declaration.body:
        return None, 'not public, or without a proof'
    return declaration, None


def wrongs(root):
    """What is wrong, by law or sentence; None where all is well with it."""
    text = (root / PAGE).read_text()
    laws, hashes = table(text), stated((root / STATEMENTS).read_text())
    project = Project(root)
    cited, alone, results = project.cited_by_proofs(), set(), []
    for law, file in laws:
        declaration, wrong = look_up(root, project, law, file)
        if declaration:
            if declaration not in cited:
                alone.add(law)
            if (law, file) not in hashes:
                wrong = 'not in statements.txt'
            elif short_hash(project.statement(declaration)) != hashes[law, file]:
                wrong = f'another statement than that of statements.txt: read it (tests/laws/run --words {law})'
        results.append((f'{law} ({file})', wrong))
    for law, file in hashes:
        if (law, file) not in laws:
            results.append((f'{law} ({file})', 'in statements.txt and in no table'))
    names = {law for law, _ in laws}
    for law in sorted({law for found in NAMED.findall(text) for law in QUOTED.findall(found)}):
        results.append((f'{law}, in the text', None if law in names else 'in no table'))
    said = {law for found in re.findall(rf'^{ALONE}:(.*?)\n\n', text, re.M | re.S) for law in QUOTED.findall(found)}
    differ = f'the text says {sorted(said - alone)} besides, and not {sorted(alone - said)}'
    results.append((ALONE, None if said == alone else differ))
    return results


# Each a kind of fault: its name, the law that it is about and what the test must say of it; a file, and a text of it
# that is replaced.
RUN_SUMS = 'run_sums (stepper/proofs/Sum.antt)'
SUM, STEPPER = 'crates/stepper/proofs/Sum.antt', 'crates/stepper/proofs/Lib.antt'
OTHER, RULES = 'another statement', 'crates/ticket/specs/Rules.antt'
UNPROVED = 'the file is not declared'
FAULTS = [
    ('a law deleted', RUN_SUMS, 'not declared there', SUM, 'pub run_sums :', 'pub run_sums_not :'),
    ('a law made private', RUN_SUMS, 'not public', SUM, 'pub run_sums :', 'run_sums :'),
    ('a law as an axiom', RUN_SUMS, 'not public', SUM, 'pub run_sums :', 'axiom pub run_sums :'),
    ('a weakened statement', 'step_cost (stepper/proofs/Costs.antt)', OTHER,
     'crates/stepper/proofs/Costs.antt', '→ 2 ≤ k.0\n  step_cost', '→ 1 ≤ k.0\n  step_cost'),
    ('a premise more around a law', 'few (ticket/proofs/WrittenRead.antt)', OTHER,
     'crates/ticket/proofs/WrittenRead.antt', '≡ read f) where', '≡ read f) (h : s ≡ []) where'),
    ('a weakened proposition', 'checked_readable (ticket/proofs/Readable.antt)', OTHER,
     RULES, 'pub code_start : 1 ≤', 'pub code_start : 0 ≤'),
    ('a weakened proposition behind others', 'demand_3 (rules/proofs/Demand.antt)', OTHER,
     RULES, 'pub code_start : 1 ≤', 'pub code_start : 0 ≤'),
    ('a weakened function of a proposition', 'demand_3 (rules/proofs/Demand.antt)', OTHER,
     'crates/rules/specs/InUse.antt', 'calls ws used = addresses ws ∷ used', 'calls ws used = [] ∷ used'),
    ('another meaning behind a word', 'same_bytes (ticket/proofs/Names.antt)', OTHER,
     'crates/ticket/specs/RoundTrip.antt', 'Prelude.{ℕ, ◌≤◌, ', 'Prelude.{ℕ, ◌<◌ as ◌≤◌, '),
    ('a weakened function of laws alone', RUN_SUMS, OTHER,
     'crates/stepper/specs/Answer.antt', 'cycles_spent (spent r k) = k.0', 'cycles_spent (spent r k) = 0'),
    ('one of the twelve cases taken out', 'proved (cases/proofs/Table.antt)', OTHER,
     'crates/cases/specs/Table.antt', '    refused [] routine_p TicketCut 2 0 ∷\n', ''),
    ('a file taken out of Lib.antt', RUN_SUMS, UNPROVED, STEPPER, 'pub mod Sum\n', ''),
    ('a file declared for its crate alone', RUN_SUMS, UNPROVED, STEPPER, 'pub mod Sum\n', 'mod Sum\n'),
    ('a crate taken out of crates.txt', 'proved (cases/proofs/Table.antt)', UNPROVED,
     'crates.txt', '\ncases: ', '\n#cases: '),
    ('a law without its hash', RUN_SUMS, 'not in statements.txt', STATEMENTS, '\nrun_sums ', '\n#run_sums '),
    ('a law taken out of its table', RUN_SUMS, 'in statements.txt and in no table', PAGE, '| `run_sums` |', '| sums |'),
    ('a law of the text in no table', 'made_up, in the text', 'in no table', PAGE, 'law `unchanged`', 'law `made_up`'),
    ('a law said to be cited that is not', ALONE, "the text says [] besides, and not ['run_sums']",
     PAGE, 'and `run_sums`.', '.'),
]


def copy(root, to):
    """What the test reads, without what rt makes of it."""
    shutil.copytree(root / 'crates', to / 'crates', ignore=shutil.ignore_patterns('data', 'must-fail'))
    for name in ('crates.txt', PAGE, STATEMENTS):
        (to / name).parent.mkdir(parents=True, exist_ok=True)
        shutil.copy(root / name, to / name)


def seen(scratch, what, wrong, name, old, new):
    """None where a fault in a copy is seen as what it is; else what is said instead."""
    path = scratch / name
    text = path.read_text()
    if text.count(old) != 1:
        return f'{old!r} stands {text.count(old)} times in {name}'
    path.write_text(text.replace(old, new))
    found = {what: wrong for what, wrong in wrongs(scratch) if wrong}
    path.write_text(text)
    return None if found.get(what, '').startswith(wrong) else f'expected of {what}: {wrong!r}, found {found}'


def told(results):
    """Prints what is wrong and the counts; the exit status."""
    for what, wrong in results:
        if wrong:
            print(f'FAILED: {what}: {wrong}')
    failed = sum(1 for _, wrong in results if wrong)
    print(f'{len(results) - failed} passed, {failed} failed')
    return 1 if failed else 0


def main(arguments):
    if arguments[:1] == ['--show'] or arguments[:1] == ['--words']:
        project = Project(ROOT)
        if arguments[0] == '--show':
            print('# A law, its file, and the hash of its statement; laws.py says how a line is renewed.')
        for law, file in table((ROOT / PAGE).read_text()):
            declaration, wrong = look_up(ROOT, project, law, file)
            if wrong:
                raise SystemExit(f'{law} ({file}): {wrong}')
            words = project.statement(declaration)
            if arguments[0] == '--show':
                print(law, file, short_hash(words))
            elif law in arguments[1:]:
                print('\n'.join(words))
        return 0
    results = wrongs(ROOT)
    if not any(wrong for _, wrong in results):
        with tempfile.TemporaryDirectory() as work:
            copy(ROOT, Path(work))
            results += [(f'fault: {name}', seen(Path(work), *fault)) for name, *fault in FAULTS]
    return told(results)


if __name__ == '__main__':
    sys.exit(main(sys.argv[1:]))
