"""The data of check_calls: each line that it answers, and below it the lines of the answer that is wanted.

python3 -B -m oracle.make [SEED]. A line that begins a case stands behind `>`, a further one of the case behind `+`, and
an answer's line behind `=`. The data of each part stand one behind another, each behind a line `#` with its name."""
import random
import sys

from ..model.built import leave_out
from . import check_channel, check_outside, check_reports, check_undo
from .cases import SEED

# the parts: their data and answers, and how a line begins that makes anything anew
PARTS = {'reports': (check_reports, (b'=',)), 'channel': (check_channel, (b'n ',)),
         'outside': (check_outside, (b'keys', b'notes', b'display')),
         'undo': (check_undo, (b':',))}


def made(name, of, begin, seed):
    """The data of a part."""
    lines = of.data(random.Random(f'{seed} {name}')).split(b'\n')[:-1]
    for line, answer in zip(lines, of.answers(lines)):
        yield (b'>' if line.startswith(begin) else b'+') + line + b'\n'
        yield from (b'=' + told + b'\n' for told in answer.split(b'\n')[:-1])


def whole(seed=SEED):
    """The standard input of crates/check_calls."""
    for name, (of, begin) in PARTS.items():
        yield b'#' + name.encode() + b'\n'
        yield from made(name, of, begin, seed)


def main(words):
    """Prints the data."""
    leave_out()
    if len(words) > 1:
        print('oracle.make takes a seed', file=sys.stderr)
        return 2
    for line in whole(*words):
        sys.stdout.buffer.write(line)
    return 0


if __name__ == '__main__':
    sys.setrecursionlimit(100000)
    sys.exit(main(sys.argv[1:]))
