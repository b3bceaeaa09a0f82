"""Holds pages and files to what their readers are told.

- Lines have at most 120 characters, in every file that git tracks, but for stored data, tables and quoted output in
  Markdown, rows of byte strings in code, and tactic attributes there, which the formatter keeps on one line.
- crates.txt orders the crates under headings, the layers; a crate names only crates that stand above it.
- What a page quotes as a path of this repository (`crates/..`, `docs/..`, .., or CRATE/specs/.., CRATE/proofs/..,
  CRATE/src/.., CRATE/must-fail/..) is there.
"""
import re
import subprocess

WIDTH = 120
# made or compared by programs, not read as pages
DATA = re.compile(r'crates/\w+/(data/|stdout$)|tests/(edits/samples|trace/expected)/|tests/laws/statements\.txt$'
                  r'|examples/.*\.(bin|tkt)$')
FOLDERS = 'crates', 'docs', 'tests', 'tools', 'bench', 'include', 'c', 'examples', '.ci'


def tracked(root):
    said = subprocess.run(['git', 'ls-files'], cwd=root, capture_output=True, text=True, check=True).stdout
    return [name for name in said.split('\n') if (root / name).is_file() and not DATA.match(name)]


def wide(root, name):
    lines = (root / name).read_text().split('\n')
    quoted = False
    for number, line in enumerate(lines, 1):
        quoted ^= line.startswith('```')
        table = name.endswith('.md') and (quoted or line.startswith(('|', '    ')))
        row = name.endswith('.rt') and re.match(r' *(\*?b"|#\[tactic\()', line)
        if len(line) > WIDTH and not table and not row:
            yield f'line {number} has {len(line)} characters'


def layers(root):
    here = {path.name for path in (root / 'crates').iterdir()}
    above, heading = set(), False
    for line in (root / 'crates.txt').read_text().split('\n'):
        if line.startswith('#'):
            heading = True
        elif line:
            crate, names = line.split(':')
            crate = crate.removesuffix(' staticlib')
            below = here & set(names.split()) - above
            if not heading:
                yield f'{crate} stands under no heading'
            if below:
                yield f'{crate} names {", ".join(sorted(below))}, not above it'
            above.add(crate)
    for crate in sorted(here - above):
        yield f'{crate} is not there'


def absent(root, name):
    """The paths that a page quotes and that are not there."""
    crates = '|'.join(sorted(path.name for path in (root / 'crates').iterdir()))
    for quoted in re.findall(r'`([^`\s]+)`', (root / name).read_text()):
        if re.search(r'(^|/)[A-Z_]+(/|$|\.antt$|\.edit$)', quoted):
            continue  # a name that stands for any, as crates/NAME
        if re.fullmatch(rf'({"|".join(map(re.escape, FOLDERS))})/[\w./-]*', quoted):
            path = root / quoted
        elif re.fullmatch(rf'({crates})/(src|specs|proofs|must-fail)[\w./-]*', quoted):
            path = root / 'crates' / quoted
        else:
            continue
        if not path.exists() and not path.with_name(path.name + '.edit').exists():
            yield f'`{quoted}` is not there'


def wrongs(root):
    """Each file, with what is wrong with it."""
    names = tracked(root)
    for name in names:
        yield f'{name}: lines', '; '.join(wide(root, name))
        if name.endswith('.md'):
            yield f'{name}: paths', '; '.join(absent(root, name))
    yield 'crates.txt: layers', '; '.join(layers(root))
