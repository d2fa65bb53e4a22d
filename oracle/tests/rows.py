"""Worked examples: keys, and what must be seen, worked out by hand from the manual and this project's rules.
Run: python3 -m oracle.tests.rows [NAME...]"""
import sys
import traceback

from . import worked_parts, worked_rooms, worked_runs
from .worked_frame import ROWS

# each of these adds its examples to the rows
MODULES = (worked_runs, worked_parts, worked_rooms)


def main(names):
    """Runs the worked examples of these names, or all; 1 where one fails."""
    bad = 0
    for name, f in ROWS:
        if names and name not in names:
            continue
        try:
            f()
        except AssertionError as e:
            bad += 1
            print('FAIL %-6s %s' % (name, e))
        except Exception:
            bad += 1
            print('CRASH %s' % name)
            traceback.print_exc(limit=-4, file=sys.stdout)
        else:
            print('pass %s' % name)
    print('%d rows, %d failed' % (len(ROWS) if not names else len(names), bad))
    return 1 if bad else 0


if __name__ == '__main__':
    sys.setrecursionlimit(100000)
    sys.exit(main(sys.argv[1:]))
