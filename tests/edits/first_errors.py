"""Why is each must-fail edit refused? Reads what `rt ci` or `rt must-fail` says of every edit of crates/*/must-fail, a
line each, and looks at the first error that it quotes there.

  tests/edits/run [--list] [SAID]    SAID is a file with what was said; without it `rt must-fail` is run

An edit counts where that error is the promise: a contract, a loop's or a type's invariant or a law that no longer
holds. It fails
- where nothing is said of it, or that it was not tried, could not be applied or read, or is proved;
- where the error is a misfit of the proof file, as a goal, field, name or argument that is not there: any other shape
  of the code, right or wrong, would be refused so;
- where it is a limit of the prover;
- where it is an array's bound or a number that does not fit its type: these are asked of every program;
- where it is a callee's `requires`, unless requires.txt lists the edit and says why that is the promise.
An entry of requires.txt that is not needed fails too.

The toolchain quotes the beginning of the first error that is no missing name, and says itself where there is none but
those. Where the quotation does not tell, the edit is made on a copy, the crate checked, and its first error read whole:
- a goal that nothing proves, of a function whose proof file answers others: that file may answer it by another name;
- a law whose two types differ: only the whole says whether a value is wrong, or the proof fits no more.
The samples are real quotations: they must be told apart."""
import re
import shutil
import subprocess
import sys
import tempfile
from pathlib import Path

HERE = Path(__file__).resolve().parent
PROMISE, REQUIRES, BOUND, LIMIT, MISFIT, NONE = 'promise', 'requires', 'bound', 'limit', 'misfit', 'none'
UNCLEAR = 'unclear'
QUOTED = 160  # how much of an error the toolchain quotes

# What the toolchain says, in an error's first line, where a proof file does not fit the code or the definitions.
MISFITS = re.compile(
    r'has no field `|that can be named from here|is not in scope|for this file to be the proof of|this file exports no'
    r'|does not define it|an interval variable\) is expected here|(expected|has) type `goal\.|has no `'
    r'|was not admitted')
# What it says of a fact that is not proved: `simp`, `cc`, `rw`, `omega`, `search`, a term of another type, a proof that
# it makes itself. Whatever is said in no such words counts as a misfit.
FACTS = re.compile(
    r'give a proof of that as the last argument|list the missing equation with its arguments'
    r'|must be a path whose two ends are equal|no equation of the list has an instance|before the equations had joined'
    r'|no occurrence of the path|does not follow from what it read|`(search|grind)`: no proof of'
    r'|the two (types|indices)|expected type `|but this has type|it is not proved that')
SAID = re.compile(r'rt: must-fail (\w+)/(\S+?)\.edit: (.*)')
REFUSED = 'refused, as it must be'
ERROR = re.compile(r'(?:\./)?((?:proofs|specs)/\S*?\.antt)(?::(\d+):(\d+))?: error: (?:`([^`]*)`: )?')
UNPROVED = re.compile(r'note: (src/\S+?\.rt):(\d+):\d+: it is not proved that (.*)')


class FirstError:
    """Its text, and where it stands: file, line and declaration, or the goal that nothing proves and its function."""

    def __init__(self, log):
        self.text = ''
        self.file = self.declaration = self.goal = self.fact = None
        self.line = 0
        for line in log.splitlines():
            if self.text:
                if not line.startswith('  '):
                    return
                self.text += '\n' + line
            elif found := ERROR.match(line):
                self.file, row, _, self.declaration = found.groups()
                self.line = int(row or 0)
                self.text = line
            elif found := UNPROVED.match(line):
                self.file, self.line, self.fact = found[1], int(found[2]), found[3]
                goal = re.search(r'\(`([^`]+)`\)', self.fact)
                self.goal = goal and goal[1]
                self.text = line

    def is_cut(self):
        return len(self.text.partition('\n')[0]) >= QUOTED


def class_of_goal(goal):
    """By the name that the toolchain gives to what is to be proved at a point of a function."""
    if re.match(r'(returns|invariant_of)(-|$)', goal):
        return PROMISE
    if re.match(r'(overflow_\w+|nonzero_\w+|bounds|slice_bounds|offset_bounds|prove)(-|$)', goal):
        return BOUND
    if re.search(r'-requires(-|$)', goal):
        return REQUIRES
    return PROMISE if re.search(r'-(init|preserved|smaller)(-|$)', goal) else BOUND


def class_of_fact(fact):
    """By the sentence, where the goal's name is cut off."""
    if re.match(r'what the function ensures|the (invariant|loop) ', fact):
        return PROMISE
    return REQUIRES if re.match(r'what .* requires holds', fact) else UNCLEAR


class Answers:
    """A function's proof file: which of its declarations answers which goal."""

    def __init__(self, text):
        self.lines = text.splitlines()
        self.goals = dict(re.findall(r'^(?:abbrev )?(?:pub )?(\S+) : goal\.(\S+)', text, re.M))
        named = [re.match(r'(?:pub |abbrev |unfoldable )*([^\s(){}]+) : ', line) for line in self.lines]
        starts = [i for i, found in enumerate(named) if found]
        ends = starts[1:] + [len(self.lines)]
        self.bodies = {named[i].group(1): '\n'.join(self.lines[i + 1:end]) for i, end in zip(starts, ends)}

    def goals_by(self, declaration):
        """The goals whose answers use a declaration, at once or through others."""
        found, todo, seen = set(), [declaration], {declaration}
        while todo:
            used = re.compile(r'(?<![\w.·-])' + re.escape(todo.pop()) + r'(?![\w·-])')
            for name, body in self.bodies.items():
                if name in seen or not used.search(body):
                    continue
                seen.add(name)
                if name in self.goals:
                    found.add(self.goals[name])
                else:
                    todo.append(name)
        return found


def answers_of(crate, error):
    """The proof files of the function that a note stands in: of any of its name."""
    path = crate / error.file
    lines = path.read_text().splitlines() if path.is_file() else []
    for line in reversed(lines[:error.line]):
        if found := re.search(r'\bfn (\w+)', line):
            return [Answers(file.read_text()) for file in sorted(crate.glob(f'proofs/**/{found[1]}/Answers.antt'))]
    return []


def differ_in_a_value(text):
    """Whether two types that an error prints differ in values alone: in what it says itself, or in numbers."""
    if 'differ only where' in text:
        return True
    types = re.search(r'the two types are `(.*?)` \(expected\) and `(.*?)` \(found\)', text, re.S)
    return bool(types) and len({re.sub(r'\b\d+\b', '0', ' '.join(printed.split())) for printed in types.groups()}) == 1


def class_of(error, crate):
    """The class of a first error of a crate, as far as its text tells."""
    first = error.text.partition('\n')[0]
    if not error.text or MISFITS.search(first):
        return MISFIT
    if not FACTS.search(first):
        return UNCLEAR if error.is_cut() else MISFIT
    if error.fact:
        found = class_of_goal(error.goal) if error.goal else class_of_fact(error.fact)
        answered = [name for file in answers_of(crate, error) for name in file.goals]
        # a proof file that answers other goals may answer this one by the name that it had
        return UNCLEAR if answered and error.goal not in answered else found
    if not error.file.endswith('/Answers.antt'):
        if not re.search('the two types|expected type `|but this has type', first):
            return PROMISE
        # A term of quite another type says that the proof does not fit, and not what is wrong.
        return UNCLEAR if error.text == first else PROMISE if differ_in_a_value(error.text) else MISFIT
    answers = Answers((crate / error.file).read_text())
    if error.declaration in answers.goals:
        return class_of_goal(answers.goals[error.declaration])
    classes = {class_of_goal(goal) for goal in answers.goals_by(error.declaration)}
    return next((c for c in (BOUND, REQUIRES, PROMISE) if c in classes), MISFIT)


def class_of_whole(log, crate):
    """The class by all that a check says: what it says of a proof file stands before the goals that are left."""
    error = FirstError(log)
    if error.fact:
        return class_of_goal(error.goal) if error.goal else class_of_fact(error.fact)
    found = class_of(error, crate)
    return MISFIT if found == UNCLEAR else found


def reason_of(said):
    """What is quoted of the first error; or the class that the toolchain's own words give."""
    if said.startswith(REFUSED + ': '):
        return said[len(REFUSED) + 2:], None
    if said.startswith(REFUSED + ' (only by a limit'):
        return said, LIMIT
    return said, MISFIT if said.startswith(REFUSED) else NONE


def entries_in(path):
    """CRATE/EDIT with the reason, of each entry of requires.txt."""
    lines = [line for line in path.read_text().splitlines() if line.strip() and not line.startswith('#')]
    return {edit.strip(): why.strip() for edit, _, why in (line.partition(':') for line in lines)}


def examine(root, said, entries, whole):
    """For each edit and each needless entry its name with a complaint, or None; and the class of each edit."""
    results, classes = [], {}
    complaints = {
        MISFIT: 'the proof file does not fit the code, or does not tell which goal this is',
        BOUND: "the first error is an array's bound or a number that does not fit its type",
        REQUIRES: "the first error is a callee's `requires`, and requires.txt does not say why that is the promise",
        LIMIT: 'the prover came to no verdict',
        NONE: 'it is not refused',
        UNCLEAR: 'the first error does not tell why',
    }
    told = {f'{crate}/{edit}': text for crate, edit, text in SAID.findall(said)}
    for path in sorted(root.glob('crates/*/must-fail/*.edit')):
        name = f'{path.parts[-3]}/{path.stem}'
        if name not in told:
            results.append((name, 'nothing was said of it'))
            continue
        text, found = reason_of(told[name])
        if not found:
            found = class_of(FirstError(text), path.parents[1])
            if found == UNCLEAR:
                text = whole(path)
                found = class_of_whole(text, path.parents[1])
                text = FirstError(text).text
        classes[name] = found
        fine = found == PROMISE or (found == REQUIRES and entries.get(name))
        results.append((name, None if fine else f'{complaints[found]}: {text[:300] or "no error"}'))
    for name in entries:
        if name not in classes:
            results.append((f'requires.txt: {name}', 'there is no such edit'))
        elif classes[name] != REQUIRES:
            results.append((f'requires.txt: {name}', f'the first error is no `requires`: {classes[name]}'))
    return results, classes


def applied(text, crate):
    """Makes an edit on a crate; what each file was."""
    path, was = None, {}
    for line in text.splitlines():
        word, _, rest = line.partition(':')
        if word == 'file':
            path = crate / rest.strip()
        elif word == 'old':
            old = rest[1:]
        elif word == 'new':
            was.setdefault(path, path.read_text())
            path.write_text(path.read_text().replace(old, rest[1:]))
    return was


class Copy:
    """A copy of the crates, in which an edit is made and its crate checked; from what this checkout has proved, as far
    as the toolchain shares that."""

    def __init__(self, root, folder):
        self.root, self.top = root, Path(folder) / 'copy'

    def check(self, edit):
        print(f'{edit.parts[-3]}/{edit.stem}: its crate is checked, to read the first error whole', flush=True)
        if not self.top.exists():
            shutil.copytree(self.root / 'crates', self.top / 'crates',
                            ignore=shutil.ignore_patterns('out', 'must-fail'))
            shutil.copy(self.root / 'crates.txt', self.top)
        crate = self.top / 'crates' / edit.parts[-3]
        was = applied(edit.read_text(), crate)
        try:
            return subprocess.run(['rt', 'check'], cwd=crate, text=True, stdin=subprocess.DEVNULL,
                                  stdout=subprocess.PIPE, stderr=subprocess.STDOUT, check=False).stdout
        finally:
            for path, text in was.items():
                path.write_text(text)


def try_samples():
    """In a repository made of the samples each, named CLASS-WHAT, is of its class and gets the complaint it should."""
    with tempfile.TemporaryDirectory() as made:
        crate, said = Path(made) / 'crates/c', ''
        (crate / 'must-fail').mkdir(parents=True)
        (crate / 'must-fail/nothing_said.edit').touch()
        for sample in sorted((HERE / 'samples').iterdir()):
            (crate / f'must-fail/{sample.name}.edit').touch()
            said += f'rt: must-fail c/{sample.name}.edit: {(sample / "said").read_text()}'
            for file in sample.glob('**/*.sample'):  # the proof file and the code that an error stands in
                place = crate / file.relative_to(sample).with_suffix('')
                place.parent.mkdir(parents=True, exist_ok=True)
                shutil.copy(file, place)
        entries = {'c/requires-named': 'a reason', 'c/gone': 'a reason', 'c/promise-law': 'a reason'}
        examined, classes = examine(Path(made), said, entries,
                                    lambda edit: (HERE / 'samples' / edit.stem / 'log').read_text())
    results = []
    for name, found in classes.items():
        told = name.startswith(f'c/{found}-')
        results.append((f'sample {name[2:]}', None if told else f'taken for {found}'))
    wrong = {name for name, complaint in examined if complaint}
    right = {name for name in classes if name.startswith('c/promise-')} | {'c/requires-named'}
    wanted = classes.keys() - right | {'c/nothing_said', 'requires.txt: c/gone', 'requires.txt: c/promise-law'}
    differ = f'complaints differ: {sorted(wrong ^ wanted)}'
    return results + [('a repository of the samples', None if wrong == wanted else differ)]


def main(arguments):
    root = HERE.parent.parent
    if files := [it for it in arguments if it != '--list']:
        said = Path(files[0]).read_text()
    else:
        said = subprocess.run(['rt', 'must-fail'], cwd=root, text=True, stdin=subprocess.DEVNULL,
                              stdout=subprocess.PIPE, check=False).stdout
    with tempfile.TemporaryDirectory() as folder:
        results, classes = examine(root, said, entries_in(HERE / 'requires.txt'), Copy(root, folder).check)
    results += try_samples()
    if not classes:
        results.append(('edits', 'nothing was said of any edit'))
    if '--list' in arguments:
        for name, found in classes.items():
            print(f'{found:9}{name}')
    failed = [(name, complaint) for name, complaint in results if complaint]
    for name, complaint in failed:
        print(f'{name}: {complaint}')
    print(f'{len(results) - len(failed)} passed, {len(failed)} failed')
    return 1 if failed else 0


if __name__ == '__main__':
    sys.exit(main(sys.argv[1:]))
