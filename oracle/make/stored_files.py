"""Stored runs over worksheet files: runs that begin with a file that is refused, and runs that retrieve files one after
another."""
import string

from ..model.address import row_order
from .files import SHEETS, all_files, saved_of
from .runs import Run
from .stored_parts import goto

# the names of a folder's files; what is saved of them has a second letter
NAMES = string.ascii_uppercase[:20]
LARGE = 100000  # the bytes of a file that a run erases, so that what it leaves is short
LOOKS = 2       # at cells of a sheet


def looked_at(r, saved):
    """Keys that go to some of a sheet's cells, whose contents and formats are then shown."""
    cells = sorted(saved.cells, key=row_order)
    return b''.join(goto(cell) for cell in r.sample(cells, min(LOOKS, len(cells))))


def taken_in(r, name, saved, is_open):
    """Keys that retrieve a file and save its sheet again. Where it has formulas, the values that they had there are
    added to an empty sheet, which is saved too. Now and then the sheet's first cells are saved alone, or all are copied
    into an empty sheet."""
    keys = (b'' if is_open else b'/FR%s~' % name) + looked_at(r, saved) + b'/FS%sR~' % name
    if r.randrange(8) == 0:
        keys += b'/FXF%sF~A1..D5~/FXV%sV~A1..D5~' % (name, name)
    if any(state.content[0] == 'formula' for state in saved.cells.values()):
        keys += b'/WEY/FCA%s~/FS%sA~' % (name, name)
    if r.randrange(8) == 0:
        keys += b'/WEY/FCC%s~/FS%sC~' % (name, name)
    return keys


def in_turn(r, group):
    """A run over files, of which the first is its start file where that can be read."""
    options, keys, folder = [], b'', {}
    for letter, data in zip(NAMES, group):
        name, saved = letter.encode(), saved_of(data)
        is_open = not folder and saved is not None
        if is_open:
            options = ['--file', letter]
        keys += b'/FR%s~{ESC}' % name if saved is None else taken_in(r, name, saved, is_open)
        folder[letter + '.WK1'] = data
        if len(data) > LARGE:
            keys += b'/FE%s~Y' % name
    return Run(options, keys, folder)


def runs(r, count):
    """Runs over the files of so many sheets, as many others, and damaged forms of both."""
    group = []
    for data in all_files(r, count):
        is_refused = saved_of(data) is None
        if is_refused and len(data) <= LARGE:
            yield Run(['--file', 'A'], b'', {'A.WK1': data})
        if not is_refused or len(data) > LARGE or r.randrange(8) == 0:
            group.append(data)
        if len(group) == len(NAMES):
            yield in_turn(r, group)
            group = []
    yield in_turn(r, group)


def files(r):
    """The stored runs."""
    return runs(r, SHEETS)
