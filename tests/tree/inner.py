"""Holds files of code to what their readers are told: a public function that asks something of its caller is inner,
and the comment at the head of its file, or of its crate's src/lib.rt, says so.
"""
import re

HEAD = re.compile(r'( *)pub (?:extern "C" )?fn (\w+)')
CLAUSE = re.compile(r' *(requires|ensures)\b')


def functions(text):
    """Each public function with its clauses: the lines from its head to the brace that opens its body, which ends the
    head or stands on a line of its own after clauses."""
    found = None
    for line in text.split('\n'):
        if head := HEAD.match(line):
            found, clauses = head, []
        if found:
            if CLAUSE.match(line) or clauses:
                clauses.append(line)
            if line == found[1] + '{' or (line.endswith(('{', '}', ';')) and not clauses):
                yield found[2], clauses
                found = None


def head(path):
    """The comment that a file begins with."""
    return re.match(r'(//.*\n)*', path.read_text()).group() if path.is_file() else ''


def wrongs(root):
    """Each file with public functions that have a `requires`, with whether it is said to be inner."""
    for path in sorted(root.glob('crates/*/src/**/*.rt')):
        asking = [name for name, clauses in functions(path.read_text())
                  if any(re.match(r' *requires\b', line) for line in clauses)]
        if asking:
            name = path.relative_to(root)
            library = root / 'crates' / name.parts[1] / 'src/lib.rt'
            inner = re.search(r'\binner\b', head(path) + head(library))
            yield f'{name}: inner', None if inner else f'no head says so, and {asking[0]} asks something'
