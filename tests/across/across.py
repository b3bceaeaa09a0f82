"""Must-fail edits that span crates: a rule that stands in one crate, dropped from its code, its definition and its
rules alike, or two numbers exchanged in all of these, must be refused by the proof of another that needs it.

Each *.edit beside this file has a line 'refused in: CRATE FILE DECLARATION', then blocks as a must-fail edit has them,
with files from the repository's root; '\\n' in what is new ends a line. On a copy of the tree the edit is made and the
crate is checked; what is proved already and does not change the toolchain takes from other copies on this machine.
Every crate before it must be proved, and its first error must be the declaration's."""
import re
import shutil
import subprocess
import sys
import tempfile
from pathlib import Path

HERE = Path(__file__).resolve().parent
ROOT = HERE.parents[1]


def blocks(text):
    """The file, old and new text of each replacement."""
    path = old = None
    for line in text.splitlines():
        word, _, rest = line.partition(': ')
        if word == 'file':
            path = rest
        elif word == 'old':
            old = rest
        elif word == 'new':
            yield path, old, rest.replace('\\n', '\n')


def edited(copy, text):
    """Makes the edit on the copy; says what does not fit."""
    for path, old, new in blocks(text):
        file = copy / path
        before = file.read_text()
        if before.count(old) != 1:
            return f'{path}: {before.count(old)} times: {old}'
        file.write_text(before.replace(old, new))
    return None


def complaint(path, work):
    """Why an edit does not show what it is to show, or None."""
    text = path.read_text()
    crate, file, declaration = re.search(r'^refused in: (\S+) (\S+) (\S+)$', text, re.M).groups()
    copy = work / path.stem
    copy.mkdir()
    shutil.copytree(ROOT / 'crates', copy / 'crates', ignore=shutil.ignore_patterns('must-fail', 'out'))
    shutil.copy(ROOT / 'crates.txt', copy)
    if wrong := edited(copy, text):
        return wrong
    log = subprocess.run(['rt', 'check'], cwd=copy / 'crates' / crate, text=True, stdin=subprocess.DEVNULL,
                         stdout=subprocess.PIPE, stderr=subprocess.STDOUT, check=False).stdout
    if lacking := re.search(r'^rt: the library (\S+) did not build', log, re.M):
        return f'{lacking[1]}, before it, is not proved'
    errors = [line for line in log.splitlines() if ': error: ' in line]
    if not errors:
        return f'not refused; the last line is: {log.splitlines()[-1]}'
    if not re.match(rf'(\./)?{re.escape(file)}:', errors[0]) or f': error: `{declaration}`: ' not in errors[0]:
        return f'the first error is another: {errors[0]}'
    return None


def main():
    passed = failed = 0
    with tempfile.TemporaryDirectory() as work:
        for path in sorted(HERE.glob('*.edit')):
            print(f'across/{path.stem}: crates are proved again, about a minute', flush=True)
            if wrong := complaint(path, Path(work)):
                failed += 1
                print(f'FAIL {path.stem}: {wrong}')
            else:
                passed += 1
    print(f'{passed} passed, {failed} failed')
    return 1 if failed or not passed else 0


if __name__ == '__main__':
    sys.exit(main())
