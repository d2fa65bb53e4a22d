"""What the checks of a program against the oracle share: their words, and what is told of the runs that differ."""
import argparse
import os

from ..make.cases import SEED

# so many runs that differ are told with their keys
MOST_TOLD = 5


def parser(module):
    """Reads the words of a check: PROGRAM N [SEED] [--processes P]."""
    out = argparse.ArgumentParser(prog=f'python3 -B -m oracle.tests.{module}')
    out.add_argument('program', type=os.path.abspath)
    out.add_argument('count', type=int)
    out.add_argument('seed', nargs='?', default=SEED)
    out.add_argument('--processes', type=int)
    return out


def tell(why):
    """Tells the first of what differs."""
    for one in why[:MOST_TOLD]:
        print(one)


def ended(why, summary):
    """Tells the first of what differs, and a summary with how many do; the status of the check."""
    tell(why)
    print(f'{summary}, {len(why)} differ')
    return 1 if why else 0
