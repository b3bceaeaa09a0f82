"""Holds the tree to what its readers are told: which definitions are to be believed (believed.py), which code is inner
(inner.py), and lines, layers and paths (pages.py). On a scratch copy it shows that each kind of fault is seen.

  tests/tree/run           the test. Last line: 'N passed, M failed'; the exit status tells.
  tests/tree/run --lines   how many lines are to be believed, and how many definitions are inner.
"""
import shutil
import subprocess
import sys
import tempfile
from pathlib import Path

sys.dont_write_bytecode = True
import believed
import inner
import pages
from laws import told

ROOT = Path(__file__).resolve().parents[2]
# a file of the copy, what in it becomes what, and what must be said
FAULTS = [
    ('a definition that nothing leads to', 'crates/memory/specs/Memory.antt',
     lambda text: text + '\nabbrev pub unused : ℕ → ℕ\nunused a = a\n', 'unused'),
    ('a definition of a contract among the inner ones', 'crates/lists/specs/inner/Bit.antt',
     None, 'inner/Bit.antt: one'),
    ('a public call that asks something', 'crates/stepper/src/lib.rt',
     lambda text: text.replace('-> Stepped\n    ensures', '-> Stepped\n    requires { r.pc ≡ 0 }\n    ensures'),
     'lib.rt: step: a public call asks'),
    ('an inner module that does not say so', 'crates/ticket/src/reader.rt',
     lambda text: text.replace('An inner module', 'A module'),
     'reader.rt: inner: no head says so, and next_command asks'),
    ('an inner crate that does not say so', 'crates/opcodes/src/lib.rt',
     lambda text: text.replace('An inner crate', 'A crate'), 'opcodes/src/lookup.rt: inner: no head says so'),
    ('a wide line', 'README.md', lambda text: text + 'x' * 121 + '\n', '121 characters'),
    ('a wide line of code', 'crates/memory/src/lib.rt', lambda text: text + '// ' + 'x' * 118 + '\n', '121 characters'),
    ('a crate under no heading', 'crates.txt', lambda text: text[text.index('lists:'):], 'under no heading'),
    ('a crate that crates.txt lacks', 'crates.txt',
     lambda text: text.replace('arguments: lists\n', ''), 'arguments is'),
    ('a crate that names one below it', 'crates.txt',
     lambda text: text.replace('lists:', 'lists: ticket'), 'lists names'),
    ('a path that is not there', 'docs/MONITOR.md', lambda text: text + '`docs/ABSENT.md`\n', 'docs/ABSENT.md'),
]


def wrongs(root):
    return list(believed.wrongs(root)) + list(inner.wrongs(root)) + list(pages.wrongs(root))


def seen(root, file, change, said):
    """Whether a fault that is put into a fresh copy is told."""
    with tempfile.TemporaryDirectory() as work:
        copy = Path(work) / 'copy'
        shutil.copytree(root, copy, ignore=shutil.ignore_patterns('out', 'build', '.git'))
        if change:
            path = copy / file
            path.write_text(change(path.read_text()))
        else:  # the definition goes to the inner ones, and its users with it
            (copy / file).parent.mkdir(exist_ok=True)
            shutil.move(copy / file.replace('inner/', ''), copy / file)
            for path in [*copy.glob('crates/**/*.antt'), *copy.glob('crates/**/*.rt')]:
                text = path.read_text()
                moved = text.replace('lists.specs.Bit', 'lists.specs.inner.Bit')
                moved = moved.replace('specs::Bit::', 'specs::inner::Bit::')
                if moved != text:
                    path.write_text(moved)
        subprocess.run(['git', 'init', '-q', '.'], cwd=copy, check=True)
        subprocess.run(['git', 'add', '-A'], cwd=copy, check=True)
        return None if any(wrong and said in f'{what}: {wrong}' for what, wrong in wrongs(copy)) else 'not seen'


def main(arguments):
    if arguments == ['--lines']:
        for what, number in believed.lines(ROOT).items():
            print(f'{number:6} {what}')
        return 0
    results = wrongs(ROOT)
    if not any(wrong for _, wrong in results):
        results += [(f'fault: {name}', seen(ROOT, *fault)) for name, *fault in FAULTS]
    return told(results)


sys.exit(main(sys.argv[1:]))
