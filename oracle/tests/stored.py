"""The stored runs through the program, whose outcomes are compared with the digests that stand beside them.

python3 -B -m oracle.tests.stored PROGRAM [NAME..] [--processes P]
    runs what stored/NAME holds, or all of them. The oracle is asked for what differs alone: the first five are told
    with their keys"""
import argparse
import functools
import os
import sys

from ..make.pool import prepare, processes
from ..make.runs import expected
from ..make.stored import MAKERS, STORED, digest, read_line
from .checks import MOST_TOLD
from .runs import difference, got, why_differs


def alike(program, line):
    """Whether what the program does with a line's run comes to its digest."""
    told, given = read_line(line)
    return digest(got(program, *given)) == told


def why(program, line):
    """Why a run doesn't come to its digest, as the oracle tells now."""
    _, given = read_line(line)
    found = difference(expected(*given)[0], got(program, *given))
    return why_differs(given, found or 'the oracle tells the same, and what is stored is old: make it anew')


def compared(name, program, pool):
    """The lines of a name that differ, and how many there are."""
    with open(os.path.join(STORED, name), encoding='ascii') as file:
        lines = file.read().splitlines()
    same = pool.map(functools.partial(alike, program), lines, chunksize=5)
    return [line for line, is_same in zip(lines, same) if not is_same], len(lines)


def check(program, names, pool):
    """Compares the stored runs of the names; how many differ."""
    differ = 0
    for name in names:
        bad, count = compared(name, program, pool)
        for line in bad[:max(MOST_TOLD - differ, 0)]:
            print(f'stored: {name}: {why(program, line)}')
        print(f'stored: {name}: {count} runs, {len(bad)} differ')
        differ += len(bad)
    return differ


def main(words):
    """Compares the stored runs."""
    parser = argparse.ArgumentParser(prog='python3 -B -m oracle.tests.stored')
    parser.add_argument('--processes', type=int)
    parser.add_argument('program', type=os.path.abspath)
    parser.add_argument('names', nargs='*', metavar='NAME')
    asked = parser.parse_args(words)
    if not set(asked.names) <= set(MAKERS):
        parser.error('there are the runs of ' + ', '.join(MAKERS))
    prepare()
    with processes(asked.processes) as pool:
        return 1 if check(asked.program, asked.names or MAKERS, pool) else 0


if __name__ == '__main__':
    sys.exit(main(sys.argv[1:]))
