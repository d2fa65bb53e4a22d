"""Worksheet files that the listing program lists, or refuses, as the oracle does.

python3 -B -m oracle.tests.listed PROGRAM N [SEED] [--processes P]
    the worked files, those of N sheets, as many that nobody saved, and three damaged forms of each; then odd runs
python3 -B -m oracle.tests.listed FOLDER N [SEED] --cases
    the same files in a folder, each beside what is written of it as NAME.stdout"""
import functools
import os
import random
import subprocess
import sys

from ..model.listing import BAD_WORD, told
from ..model.wk1 import MOST
from ..make.files import all_files
from ..make.pool import prepare, processes
from .checks import ended, parser

NOT_READ, NOT_WRITTEN = 5, 7  # statuses
EMPTY = bytes.fromhex('00000200060401000000')


def ran(program, data, *words, **how):
    """What a run writes, notes and answers."""
    done = subprocess.run([program, *words], input=data, stderr=subprocess.PIPE, check=False,
                          **{'stdout': subprocess.PIPE, **how})
    return done.stdout, done.stderr, done.returncode


def differs(program, data):
    """Why what the program writes of a file isn't what the oracle tells, or nothing."""
    found, wanted = ran(program, data), told(data)
    return '' if found == wanted else f'file {data[:400].hex()}\n  found  {found}\n  wanted {wanted}'


def odd_runs(program):
    """Why runs with words, of too many bytes, or whose input or output fails aren't as they must be."""
    bad_word = lambda word: (b'', b'1-2-3-list: bad word: %s\n' % word, BAD_WORD)
    cases = [('a word', ran(program, EMPTY, 'JUNE.WK1', '--help'), bad_word(b'JUNE.WK1')),
             ('an empty word', ran(program, EMPTY, ''), bad_word(b'')),
             ('a long word', ran(program, EMPTY, 'x' * 100000), bad_word(b'x' * 100000)),
             ('the most bytes', ran(program, EMPTY + bytes(MOST - len(EMPTY))), told(EMPTY)),
             ('too many bytes', ran(program, EMPTY + bytes(MOST + 1 - len(EMPTY))), (b'', b'1-2-3-list: F11\n', 2))]
    with open('/dev/full', 'wb') as full:
        cases.append(('a full output', ran(program, EMPTY, stdout=full),
                      (None, b'1-2-3-list: output failed\n', NOT_WRITTEN)))
    folder = os.open('/', os.O_RDONLY)
    done = subprocess.run([program], stdin=folder, capture_output=True, check=False)
    os.close(folder)
    cases.append(('a folder', (done.stdout, done.stderr, done.returncode),
                  (b'', b'1-2-3-list: input failed\n', NOT_READ)))
    return [f'{name}\n  found  {found}\n  wanted {wanted}' for name, found, wanted in cases if found != wanted]


def files(count, seed):
    """The files of a seed."""
    return all_files(random.Random(f'{seed} files'), count)


def keep(folder, count, seed):
    """Writes the files into a folder, each beside what is written of it."""
    for at, data in enumerate(files(count, seed)):
        for name, held in ((f'{at}', data), (f'{at}.stdout', told(data)[0])):
            with open(os.path.join(folder, name), 'wb') as file:
                file.write(held)


def main(words):
    """Compares the files and the odd runs."""
    asked = parser('listed')
    asked.add_argument('--cases', action='store_true')
    asked = asked.parse_args(words)
    prepare()
    if asked.cases:
        keep(asked.program, asked.count, asked.seed)
        return 0
    with processes(asked.processes) as pool:
        found = list(pool.map(functools.partial(differs, asked.program), files(asked.count, asked.seed), chunksize=20))
    return ended([why for why in found if why] + odd_runs(asked.program), f'listing: {len(found)} files and 7 odd runs')


if __name__ == '__main__':
    sys.exit(main(sys.argv[1:]))
