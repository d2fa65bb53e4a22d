"""Runs of the program whose outcome the oracle told once, and which are stored with a digest of it: what a run's
status, screens without moments, notes and the files that it leaves come to. So they are compared without the oracle.

python3 -B -m oracle.make.stored [--seed SEED] [NAME..] [--processes P]
    makes stored/NAME anew by the oracle, or all of them

A line of stored/NAME is a digest and, as in worked/runs, the program's words, its keys and the files of its folder.
MAKERS tells what makes the runs of each name: a call that takes the random numbers of the seed and the name, and yields
them. No run may ask for the moment."""
import argparse
import hashlib
import os
import random
import re
import shlex
import sys

from . import (stored_base, stored_data, stored_files, stored_formulas, stored_numbers, stored_rooms, stored_sheets,
               stored_words)
from .cases import HERE, SEED
from .pool import prepare, processes
from .runs import expected, read_run

STORED = os.path.join(HERE, 'stored')
# what makes the runs of each name
MAKERS = {'base': stored_base.base, 'numbers': stored_numbers.numbers, 'formulas': stored_formulas.formulas,
          'values': stored_formulas.values, 'adjustments': stored_formulas.adjustments, 'files': stored_files.files,
          'edits': stored_sheets.edits, 'screens': stored_sheets.screens, 'data': stored_data.data,
          'macros': stored_data.macros,
          'rooms': stored_rooms.rooms, 'words': stored_words.words}
# bytes that stand several times behind one another
REPEATED = re.compile(rb'(.{1,300}?)\1{7,}', re.DOTALL)


# ---------------------------------------------------------------- lines

def digest(outcome):
    """The digest of a status, screens, notes and the files of a folder."""
    status, screens, notes, files = outcome
    told = repr((status, b'\n'.join(screens), notes, sorted(files.items())))
    return hashlib.sha256(told.encode()).hexdigest()[:32]


def spelled_file(held):
    """What `read_run` takes for a file's bytes, or for a folder."""
    if held is None:
        return 'folder'
    parts, at = [], 0
    for found in REPEATED.finditer(held):
        unit = found[1]
        parts += [held[at:found.start()].hex(), f'{unit.hex()}*{len(found[0]) // len(unit)}']
        at = found.end()
    return '+'.join(part for part in [*parts, held[at:].hex()] if part)


def line_of(given):
    """The line of a run, whose outcome the oracle tells."""
    outcome, _ = expected(*given)
    keys = given.keys.decode('latin-1').encode('unicode_escape').decode()
    files = [f'{name}={spelled_file(held)}' for name, held in sorted(given.folder.items())]
    line = '\t'.join([digest(outcome), shlex.join(given.options), keys, *files])
    if read_line(line)[1] != given:
        raise ValueError(f'a run that no line tells: {given}')
    return line


def read_line(line):
    """The digest of a line, and its run."""
    told, _, rest = line.partition('\t')
    return told, read_run(rest.encode())


# ---------------------------------------------------------------- all lines

def made(name, seed, pool):
    """The file of a name, made anew; how many runs it has."""
    runs = list(MAKERS[name](random.Random(f'{seed} {name}')))
    lines = list(pool.map(line_of, runs, chunksize=5))
    os.makedirs(STORED, exist_ok=True)
    with open(os.path.join(STORED, name), 'w', encoding='ascii') as file:
        file.writelines(line + '\n' for line in lines)
    return len(lines)


def main(words):
    """Makes the stored runs."""
    parser = argparse.ArgumentParser(prog='python3 -B -m oracle.make.stored')
    parser.add_argument('--seed', default=SEED)
    parser.add_argument('--processes', type=int)
    parser.add_argument('names', nargs='*', metavar='NAME')
    asked = parser.parse_args(words)
    if not set(asked.names) <= set(MAKERS):
        parser.error('there are the runs of ' + ', '.join(MAKERS))
    prepare()
    with processes(asked.processes) as pool:
        for name in asked.names or MAKERS:
            print(f'stored: {name} has {made(name, asked.seed, pool)} runs')
    return 0


if __name__ == '__main__':
    sys.exit(main(sys.argv[1:]))
