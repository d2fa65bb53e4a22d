"""Runs of the program: how a line spells one, and what the oracle tells of it. The moment on a screen's last line is
left out."""
import os
import re
import shlex
from typing import NamedTuple

from ..model.cli import run
from ..model.outside import file_name, page

BLANK_MOMENT = b' ' * 15
MOMENT = re.compile(rb'\d\d-[A-Z][a-z][a-z]-\d\d \d\d:\d\d')


class Run(NamedTuple):
    """The program's words, the keys, and what its folder holds by name: files, and None for a folder."""
    options: list
    keys: bytes
    folder: dict


def is_of_shelf(name, kinds=('WK1', 'PRN', 'TXT')):
    """Whether it is a name of a file of these kinds, as the shelf spells it."""
    return any(file_name(os.fsencode(name), ext) == name for ext in kinds)


def kind_of(words):
    """The kind of display that the words ask for."""
    joined = ' '.join(words).replace('=', ' ')
    return 'ansi' if '--show ansi' in joined else 'last' if '--show last' in joined else 'pages'


def without_moments(pages):
    """Pages with blanks in the place of the moments; in ERROR, which a macro's text may hide, the message stands
    there."""
    lines = pages.split(b'\n')
    for at in range(24, len(lines), 26):
        if MOMENT.match(lines[at]):
            lines[at] = BLANK_MOMENT + lines[at][15:]
    return lines


def expected(words, keys, folder):
    """The status, the screens as they are compared, the notes, and what the folder then holds; and how many screens."""
    files = {name: held for name, held in folder.items() if is_of_shelf(name)}
    of = run(words, keys, files, kinds=(kind_of(words),))
    if kind_of(words) == 'pages':
        screens = b''.join(page(frame) for frame in of.frames).split(b'\n')
    else:
        ended = of.frames and (kind_of(words) == 'ansi' or of.made[0].closed)
        screens = [b'']
        if ended:
            screens = of.frames[-1] if kind_of(words) == 'ansi' else page(of.frames[-1]).split(b'\n')
    others = {name: held for name, held in folder.items() if name not in files}
    return (of.status, screens, of.notes, {**others, **of.files}), len(of.frames)


def spelled_bytes(text):
    """Bytes in hexadecimal digits, in parts with a plus sign between them; a part may tell behind a star how often it
    stands there. None of a folder."""
    if text == 'folder':
        return None
    out = b''
    for part in text.split('+'):
        digits, _, times = part.partition('*')
        out += bytes.fromhex(digits) * int(times or 1)
    return out


def read_run(line):
    """The run that a line tells, in a folder with its files alone."""
    options, keys, *files = line.decode().split('\t')
    folder = {name: spelled_bytes(text) for name, text in (file.split('=') for file in files)}
    return Run(shlex.split(options), keys.encode().decode('unicode_escape').encode('latin-1'), folder)
