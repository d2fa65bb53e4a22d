"""Key lists through the built program and through the oracle: screens, notes, statuses, counts and the files left
compared. First go the worked ones of worked/runs, each a line of the program's words and keys, as a bytes literal
spells them, and files of its folder as NAME=BYTES, parted by tabs; then random ones.

python3 -B -m oracle.tests.runs PROGRAM N [SEED] [--macros | --waits] [--strict] [--undo] [--random] [--processes P]

With --macros each list types two to four sheets of macros, and none of data commands; with --waits all of them are
macros that ask, wait and switch. With --strict each run is strict, with --undo UNDO stands between the keys of each
list, and with --random the worked ones are left out. P processes share the lists, as many as the machine has processors
where P isn't given. Each run has a folder of its own, which mostly holds a few files."""
import functools
import os
import random
import shlex
import subprocess
import sys
import tempfile

from ..make.cases import worked
from ..make.pool import processes
from ..make.runs import Run, expected, kind_of, read_run, without_moments
from ..make.typist import Typist
from ..make.undo_keys import with_undos
from .checks import ended, parser


def last_screen(changes):
    """The screen that changes for a terminal come to, or none where there were none."""
    if not changes:
        return [b'']
    grid = [bytearray(80) for _ in range(25)]
    for part in changes.split(b'\x1b[')[1:]:
        place, _, text = part.partition(b'H')
        line, col = place.split(b';')
        grid[int(line) - 1][int(col) - 1:int(col) - 1 + len(text)] = text
    return without_moments(b'\n'.join(bytes(line) for line in grid))


def put_into(room, folder):
    """Makes what a folder holds."""
    for name, held in folder.items():
        path = os.path.join(room, name)
        if held is None:
            os.mkdir(path)
        else:
            with open(path, 'wb') as file:
                file.write(held)


def held_in(room):
    """What a folder holds."""
    out = {}
    for entry in os.scandir(room):
        out[entry.name] = None
        if entry.is_file():
            with open(entry.path, 'rb') as file:
                out[entry.name] = file.read()
    return out


def got(program, words, keys, folder):
    """The same of what the program wrote and left, in a folder of its own."""
    with tempfile.TemporaryDirectory() as room:
        put_into(room, folder)
        ran = subprocess.run([program, *words], input=keys, capture_output=True, timeout=120, cwd=room)
        screens = last_screen(ran.stdout) if kind_of(words) == 'ansi' else without_moments(ran.stdout)
        return ran.returncode, screens, ran.stderr, held_in(room)


def files_differ(wanted, found):
    """Why the files left aren't those that are wanted."""
    for name in sorted({*wanted, *found}):
        if name not in found or name not in wanted:
            return f'{name} is {"left" if name in found else "missing"}'
        if wanted[name] != found[name]:
            tell = lambda held: 'a folder' if held is None else held.hex()
            return f'{name} holds {tell(found[name])}, and {tell(wanted[name])} is wanted'
    return None


def difference(wanted, found):
    """Why what was found isn't what is wanted, or none."""
    if wanted[0] != found[0]:
        return f'the status is {found[0]}, and {wanted[0]} is wanted'
    if wanted[2] != found[2]:
        return f'the notes are {found[2]!r}, and {wanted[2]!r} is wanted'
    if wanted[1] != found[1]:
        at = next((i for i, (a, b) in enumerate(zip(wanted[1], found[1])) if a != b),
                  min(len(wanted[1]), len(found[1])))
        line = lambda lines: lines[at] if at < len(lines) else b''
        return f'screen {at // 26 + 1}, line {at % 26} is {line(found[1])!r}, and {line(wanted[1])!r} is wanted'
    return files_differ(wanted[3], found[3])


def told(folder):
    """What a folder holds, in a line."""
    spelled = (f'{name}={"folder" if held is None else held.hex()}' for name, held in sorted(folder.items()))
    return ' '.join(spelled) or 'nothing'


def why_differs(given, why):
    """What is told of a run that differs."""
    return f'{shlex.join(given.options)} < {given.keys!r} in a folder of {told(given.folder)}: {why}'


def run_differs(program, given):
    """A run: how many screens and files came of it, and what differs, or none."""
    wanted, screens = expected(*given)
    written = sum(given.folder.get(name, b'') != held for name, held in wanted[3].items())
    why = difference(wanted, got(program, *given))
    return screens, written, why and 'runs: ' + why_differs(given, why)


def compared(program, seed, alone, strict, undo, number):
    """A run of random keys; `alone` is `macros` or `waits` where the sheets are of these alone."""
    typist = Typist(random.Random(f'{seed} run {number}'), alone == 'macros', alone == 'waits', strict)
    keys, options = typist.keys(), typist.words()
    if undo:
        keys = with_undos(random.Random(f'{seed} undo {number}'), keys)
    return run_differs(program, Run(options, keys, typist.folder))


def worked_run(program, line):
    """The run of a worked line."""
    return run_differs(program, read_run(line))


def main(words):
    """Compares the worked runs and random ones."""
    asked = parser('runs')
    kinds = asked.add_mutually_exclusive_group()
    kinds.add_argument('--macros', action='store_const', const='macros', dest='alone')
    kinds.add_argument('--waits', action='store_const', const='waits', dest='alone')
    asked.add_argument('--strict', action='store_true')
    asked.add_argument('--undo', action='store_true')
    asked.add_argument('--random', action='store_true')
    asked = asked.parse_args(words)
    count, seed = asked.count, asked.seed
    one = functools.partial(compared, asked.program, seed, asked.alone, asked.strict, asked.undo)
    lines = [] if asked.random else worked('runs').splitlines()
    with processes(asked.processes) as pool:
        first = list(pool.map(functools.partial(worked_run, asked.program), lines, chunksize=5))
        runs = first + list(pool.map(one, range(count), chunksize=5))
    screens, written = sum(run[0] for run in runs), sum(run[1] for run in runs)
    return ended([why for _, _, why in runs if why],
f'runs: {len(first)} worked runs and {count} of seed {seed}, {screens} screens, '
                 f'{written} files written')


if __name__ == '__main__':
    sys.exit(main(sys.argv[1:]))
