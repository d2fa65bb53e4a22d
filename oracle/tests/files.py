"""Runs over worksheet files, as the stored ones are, through the program and the oracle.

python3 -B -m oracle.tests.files PROGRAM N [SEED] [--processes P]
    runs over the files of N sheets, as many others, and damaged forms of both"""
import functools
import random
import sys

from ..make.pool import prepare, processes
from ..make.stored_files import runs
from .checks import ended, parser
from .runs import run_differs


def main(words):
    """Compares runs over new files."""
    asked = parser('files').parse_args(words)
    prepare()
    with processes(asked.processes) as pool:
        made = runs(random.Random(f'{asked.seed} files'), asked.count)
        told = list(pool.map(functools.partial(run_differs, asked.program), made, chunksize=5))
    return ended([why for _, _, why in told if why],
                 f'files: {len(told)} runs over the files of {asked.count} sheets and as many others')


if __name__ == '__main__':
    sys.exit(main(sys.argv[1:]))
