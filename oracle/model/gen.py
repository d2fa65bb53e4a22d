"""The sheet that --gen makes, to measure recalculation with."""
from . import formula
from .names import Names
from .sheet import Sheet, State


def generate(rows):
    """For each row r from 1: 37*r modulo 101 in A, +Ar*3 in B, in C +B1 for row 1 and the cell above plus B otherwise.
    All formula values are 0."""
    saved = Sheet().snapshot()
    names = Names()
    for r in range(1, rows + 1):
        row = r - 1
        n = 37 * r % 101 * 1_000_000
        saved.cells[(0, row)] = State(('number', n), ('num', n), 0xFF)
        saved.cells[(1, row)] = State(('formula', formula.read(b'+A%d*3' % r, (1, row), names)), ('num', 0), 0xFF)
        text = b'+B1' if r == 1 else b'+C%d+B%d' % (r - 1, r)
        saved.cells[(2, row)] = State(('formula', formula.read(text, (2, row), names)), ('num', 0), 0xFF)
    return saved
