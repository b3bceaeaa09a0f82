"""Tells the definitions that a reader has to believe from those that are an inner matter of the code, and holds the
tree to it: the former stand in crates/*/specs, the latter in crates/*/specs/inner.

A definition is to be believed where the contract of a public call leads to it. The public calls are the public
functions of the crates of INTERFACE, at their root or in a public module; none may have a `requires`. The contract
that says what the checking program prints, in LINE, leads to definitions as theirs do. The statements of the laws of
docs/ASSURANCE.md lead to definitions too: these may stand at either place. Of the crates of OUTSIDE nothing is asked.
"""
import re
import sys

sys.dont_write_bytecode = True
sys.path.insert(0, __file__.rsplit('/', 2)[0] + '/laws')
from laws import PAGE, table
from words import ATOM, USE, Declaration, Project, imported

INTERFACE = ['stepper', 'ticket', 'verdict', 'monitor']
# the line of the checking program is document 01's
LINE = 'text/src/verdict.rt'
# the desk stepper's crates and the vectors: no demand speaks of them
OUTSIDE = ['text', 'measure', 'arguments', 'vectors']
CALL = re.compile(r'^pub (?:extern "C" )?fn (\w+)(.*?)^\{', re.S | re.M)


def sources(project):
    """The files of the public calls: the root of each crate of INTERFACE, and its public modules."""
    for crate in INTERFACE:
        root = project.crates / crate / 'src/lib.rt'
        modules = re.findall(r'^pub mod (\w+);', root.read_text(), re.M)
        yield from [root] + [root.with_name(module + '.rt') for module in modules]


def contracts(project):
    """The declarations that the contracts of the public calls name, and those of the checking program's line."""
    for source in [*sources(project), project.crates / LINE]:
        text = source.read_text()
        names = {}
        for line in text.split('\n'):
            if line.startswith('ghost use '):
                names.update(imported(USE.match(line)))
        for _, contract in CALL.findall(text):
            for atom in ATOM.findall(contract):
                if atom in names and (file := project.module(names[atom][0])):
                    yield file.declarations.get(names[atom][1]) or file.constructors[names[atom][1]]


def laws(project, root):
    """The declarations that the statements of the laws name."""
    for law, file in table((root / PAGE).read_text()):
        path = project.crates / file
        if path.is_file() and (d := project.file(path).declarations.get(law)):
            named = project.named(d.file, d.around + [d.signature])
            yield from (what for what in named if isinstance(what, Declaration))


def files(project):
    """Those of definitions that are asked about, each with whether it is inner."""
    for path in sorted(project.crates.glob('*/specs/**/*.antt')):
        if path.relative_to(project.crates).parts[0] not in OUTSIDE:
            yield path, 'inner' in path.parts


def wrongs(root):
    """Each public call, with a `requires` that it has; and each definition, with what is wrong with its place."""
    project = Project(root)
    for source in sources(project):
        for name, contract in CALL.findall(source.read_text()):
            asked = 'requires' in contract
            yield f'{source.relative_to(root)}: {name}', 'a public call asks something of its caller' if asked else None
    called = project.closure(contracts(project))
    stated = project.closure(laws(project, root))
    for path, inner in files(project):
        for d in project.file(path).declarations.values():
            wrong = None
            if inner and d in called:
                wrong = 'the contract of a public call leads to it'
            elif not inner and d not in called | stated:
                wrong = 'no contract of a public call leads to it, and no law'
            yield f'{path.relative_to(root)}: {d.name}', wrong


def lines(root):
    """How many lines the definitions to be believed and the inner ones have, without comments, `use` and `mod` lines;
    the rows of the opcode maps apart."""
    count = {'believed': 0, 'rows': 0, 'inner': 0}
    for path, inner in files(Project(root)):
        code = [l for l in path.read_text().split('\n') if l.strip() and not re.match(r' *--|use |pub mod ', l)]
        rows = [l for l in code if re.match(r' +row 0x', l)]
        count['rows'] += len(rows)
        count['inner' if inner else 'believed'] += len(code) - len(rows)
    return count
