"""The oracle made ready for long work, and the processes among which that is shared out."""
import concurrent.futures
import sys

from ..model.built import leave_out


def prepare():
    """From here on the oracle knows no more than the program has built; formulas may be as deep as they are."""
    leave_out()
    sys.setrecursionlimit(100000)


def processes(count):
    """So many processes, or as many as the machine has processors, in which the oracle is prepared."""
    return concurrent.futures.ProcessPoolExecutor(count, initializer=prepare)
