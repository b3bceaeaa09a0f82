"""The causes of docs/REFUSALS.md: each an item of the form

    - **16** `JUGROND_COST_TOO_LOW`: WORDS. Place: PLACE. To do: TODO.

where the place may be left out, and no part holds a full stop. An item that has not this form, a number that is
missing or stands twice, and a name that stands twice are errors.

  python3 tests/refusals/page.py [PAGE]    a line for each cause: number, name, words, place, to do, a tab between
"""
import re
import sys
from pathlib import Path
from typing import NamedTuple

PAGE = Path(__file__).resolve().parents[2] / 'docs/REFUSALS.md'
NUMBERS = [*range(1, 28), 29]
ITEM = re.compile(r'- \*\*(\d+)\*\* `(JUGROND_[A-Z_]+)`: ([^.]+)\. (?:Place: ([^.]+)\. )?To do: ([^.]+)\.')


class Cause(NamedTuple):
    name: str
    words: str
    place: str  # empty where the page's section has it
    to_do: str


def items(text):
    """The list items of a page, each as one line."""
    return [re.sub(r'\n +', ' ', item) for item in re.findall(r'^- .*(?:\n +\S.*)*', text, re.M)]


def causes(text):
    """The causes by number. ValueError says what is wrong with the page."""
    found = {}
    for item in items(text):
        parts = ITEM.fullmatch(item)
        if not parts:
            raise ValueError(f'not in the form: {item}')
        number = int(parts.group(1))
        if number in found:
            raise ValueError(f'{number} stands twice')
        name, words, place, to_do = parts.groups(default='')[1:]
        if any(name == other.name for other in found.values()):
            raise ValueError(f'{name} stands twice')
        found[number] = Cause(name, words, place, to_do)
    if sorted(found) != NUMBERS:
        raise ValueError(f'missing or not a number: {sorted(set(NUMBERS) ^ set(found))}')
    return found


def main(arguments):
    page = Path(arguments[0]) if arguments else PAGE
    try:
        found = causes(page.read_text())
    except ValueError as error:
        print(f'{page.name}: {error}', file=sys.stderr)
        return 1
    for number, cause in sorted(found.items()):
        print(number, *cause, sep='\t')
    return 0


if __name__ == '__main__':
    sys.exit(main(sys.argv[1:]))
