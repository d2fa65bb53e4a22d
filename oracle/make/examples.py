"""What the program must show and leave for each example: stored by this, compared by scripts/check_examples.

python3 -B -m oracle.make.examples [NAME..]

Without a name all examples are made anew. A moment isn't stored; an example keeps all its screens where they are
stored, and the last one elsewhere."""
import glob
import os
import sys

from ..model.cli import run
from ..model.outside import page
from .pool import prepare
from .runs import BLANK_MOMENT


def held_in(folder):
    """The files of a folder, or none where it isn't there."""
    out = {}
    for path in glob.glob(f'{folder}/*'):
        with open(path, 'rb') as file:
            out[os.path.basename(path)] = file.read()
    return out


def stored(frame):
    """A screen as it is stored: a page without the moment."""
    return page([*frame[:24], BLANK_MOMENT + frame[24][15:]])


def store(path, held):
    """Writes a file."""
    with open(path, 'wb') as file:
        file.write(held)


def make(example):
    """Runs the keys of an example and stores what comes of them."""
    words = []
    if os.path.exists(f'{example}.words'):
        with open(f'{example}.words', encoding='ascii') as file:
            words = file.read().split()
    with open(f'{example}.keys', 'rb') as file:
        of = run([*words, '--count'], file.read(), held_in(f'{example}.files'))
    if of.status:
        raise SystemExit(f'examples: {example} ends with {of.status}')
    if os.path.exists(f'{example}.screens'):
        store(f'{example}.screens', b''.join(map(stored, of.frames)))
    else:
        store(f'{example}.screen', stored(of.frames[-1]))
    store(f'{example}.notes', of.notes)
    for name, held in of.files.items():
        os.makedirs(f'{example}.left', exist_ok=True)
        store(f'{example}.left/{name}', held)
    return f'{example}: {len(of.frames)} screens, {len(of.files)} files'


def main(names):
    """Makes the examples anew."""
    prepare()
    for example in [f'examples/{name}' for name in names] or sorted(path[:-5] for path in glob.glob('examples/*.keys')):
        print(make(example))


if __name__ == '__main__':
    main(sys.argv[1:])
