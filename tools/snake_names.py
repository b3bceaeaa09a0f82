#!/usr/bin/env python3
"""Brings the names of this repository's own definitions and lemmas to snake case, once, after port.py.

usage: python3 tools/snake_names.py [FOLDER]      FOLDER holds crates/ (default: the current one)

Renamed are the words that begin with a small letter and hold a capital or a dash, in specs/, in the lemma files of
proofs/ and where the clauses, comments and proofs of functions cite them. Words that come from the toolchain's own
libraries stay, and so do the functions of src/, strings, and what a function's proof cites of names that the
toolchain makes. A lemma whose new name a definition beside it has gets another: see APART.
It runs once: a second run finds nothing.
"""
import collections
import os
import re
import sys

WORD = re.compile(r"(?<![\w'′\-])[A-Za-z_][\w'′]*(?:-[A-Za-z_0-9][\w'′]*)*")
USE = re.compile(r"(?m)^\s*(?:pub )?(?:ghost )?use ([\w.·'′]+?)\.\{([^}]*)\}")
SHAPED = re.compile(r"^[a-z][\w'′]*(?:-[\w'′]+)*$")

# A lemma named as a definition that it speaks of: in these crates, the old name and the new.
APART = {
    ("records", "all-given"): "given_by_all",
    ("ticket", "as_written"): "same_as_written",
    ("ticket", "commands-from"): "commands_from_encoded",
    ("ticket", "commands-in"): "commands_in_encoded",
    ("records", "entered-as"): "entered_as_given",
    ("ticket", "header-after"): "header_of_after",
    ("commands", "in_order"): "in_order_parts",
    ("ticket", "in_order"): "in_order_parts",
    ("commands", "in-range"): "in_range_by_code",
    ("ticket", "no_name"): "has_no_name",
    ("arithmetic", "overflow-difference"): "overflow_of_difference",
    ("verdict", "verdict-by"): "verdict_by_read",
    ("stepper", "waits-here"): "waits_here_by",
    ("commands", "width-at"): "operand_width_at",
}


def snake(word):
    word = word.replace("-", "_").replace("′", "'")
    word = re.sub(r"(?<=[a-z0-9])([A-Z])", lambda m: "_" + m.group(1).lower(), word)
    return word.lower()


def texts(root, endings):
    for folder, dirs, files in os.walk(os.path.join(root, "crates")):
        dirs[:] = sorted(d for d in dirs if d != "out")
        for name in sorted(files):
            if name.endswith(endings):
                yield os.path.join(folder, name)


def crate_of(root, path):
    return os.path.relpath(path, os.path.join(root, "crates")).split(os.sep)[0]


def own_crates(root):
    return set(os.listdir(os.path.join(root, "crates")))


def is_own(module, crates):
    parts = module.split(".")
    return parts[0] == "Rattle" and len(parts) > 1 and parts[1] in crates


def without_comments(text):
    return re.sub(r"(?m)(^|\s)--(\s.*)?$", r"\1", text)


def read(path):
    with open(path, encoding="utf-8") as f:
        return f.read()


def foreign_words(text, crates):
    """The words that a file brings in from the toolchain's libraries."""
    found = set()
    for module, names in USE.findall(text):
        if not is_own(module, crates):
            for item in names.split(","):
                found.update(WORD.findall(item))
    return found


def plan(root):
    """The words to rename."""
    crates = own_crates(root)
    words, foreign = set(), set()
    for path in texts(root, (".antt",)):
        text = read(path)
        foreign |= foreign_words(text, crates)
        if os.path.basename(path) != "Proof.antt":
            words |= {w for w in WORD.findall(without_comments(text)) if SHAPED.match(w) and snake(w) != w}
    for path in texts(root, (".rt",)):
        foreign |= foreign_words(read(path), crates)
    return {w for w in words if w not in foreign}


def turned(text, words, crate, only_camel):
    def new(match):
        word = match.group(0)
        if (crate, word) in APART:
            return APART[crate, word]
        if word not in words or (only_camel and "-" in word):
            return word
        return snake(word)

    return WORD.sub(new, text)


# `result` is now what a contract calls the returned value: the definition of that name is `result_of`, and the clauses
# that port.py left beside it say `result` for their own variable.
RESULT = ("specs/Result.antt", "specs/Byte.antt", "specs/Word.antt", "proofs/Negation.antt", "src/byte.rt")


def result_renamed(root):
    for name in RESULT:
        path = os.path.join(root, "crates/arithmetic", name)
        text = re.sub(r"\bresult(?=[},]| [:rcx(0n])(?! r f\b(?! =))", "result_of", read(path))
        text = re.sub(r"ensures\* \{ λ (\w)\. ⌜ \1 ≡ (.*) ⌝ \}", r"ensures { result ≡ \2 }", text)
        with open(path, "w", encoding="utf-8") as f:
            f.write(text)


def edits_turned(root):
    """The words of the edits, which port.py doesn't touch, as far as the crates have them in the new spelling."""
    own = set()
    for path in texts(root, (".antt", ".rt")):
        own |= set(WORD.findall(read(path)))
    for path in texts(root, (".edit",)):
        def new(match):
            word = match.group(0)
            return snake(word) if SHAPED.match(word) and word not in own and snake(word) in own else word

        lines = []
        for line in read(path).split("\n"):
            tag = re.match(r"(?:old|new): ", line)
            lines.append(tag.group(0) + WORD.sub(new, line[tag.end() :]) if tag else line)
        with open(path, "w", encoding="utf-8") as f:
            f.write("\n".join(lines))


def turn(root):
    result_renamed(root)
    words = plan(root)
    count = collections.Counter()
    for path in texts(root, (".antt", ".rt")):
        text = read(path)
        if path.endswith(".rt"):
            # strings and characters stay
            parts = re.split(r'(b?"(?:[^"\\]|\\.)*"|b?\'(?:[^\'\\]|\\.)\')', text)
            new = "".join(p if i % 2 else turned(p, words, crate_of(root, path), True) for i, p in enumerate(parts))
        else:
            new = turned(text, words, crate_of(root, path), False)
        if new != text:
            count["files"] += 1
            with open(path, "w", encoding="utf-8") as f:
                f.write(new)
    edits_turned(root)
    print(f"snake_names: {len(words)} words, {count['files']} files")
    return words


if __name__ == "__main__":
    turn(sys.argv[1] if len(sys.argv) > 1 else ".")
