"""Fill, sort, distribution and tables, as the manual's Data menu has them.

A bench has try_input(cell, value), answer(cell) -> value or None, give_back()."""

from functools import cmp_to_key

from . import fixed, text
from .address import COLS, ROWS, in_span
from .sheet import SheetFault
from .values import BLANK, value_content


class BlockFault(Exception):
    """kind 'ZeroStep' (B1), 'NoTable' (B2), 'InputInTable' (B3, payload the cell), 'Sheet' (payload a
    SheetFault)."""

    def __init__(self, kind, payload=None):
        super().__init__(kind, payload)
        self.kind = kind
        self.payload = payload


def fill(span, start, step, stop):
    """Column by column from start by step; ends before the first number past stop, in the step's
    direction, or beyond the size."""
    if step == 0:
        raise BlockFault('ZeroStep')
    writes = []
    v = start
    for col in range(span[0][0], span[1][0] + 1):
        for row in range(span[0][1], span[1][1] + 1):
            if v is None or (v > stop if step > 0 else v < stop):
                return writes
            writes.append(((col, row), ('number', v), None))
            v = fixed.add(v, step)
    return writes


RANK = {'blank': 0, 'num': 1, 'str': 2, 'na': 3, 'err': 4}


def compare(a, b):
    """Blank, then numbers, then texts folded and then by bytes, then NA, then ERR."""
    if RANK[a[0]] != RANK[b[0]]:
        return -1 if RANK[a[0]] < RANK[b[0]] else 1
    if a[0] == 'num':
        return (a[1] > b[1]) - (a[1] < b[1])
    if a[0] == 'str':
        return text.fold_cmp(a[1], b[1]) or (a[1] > b[1]) - (a[1] < b[1])
    return 0


def sort_rows(span, keys, look):
    """keys: one or two (col, descending) in order, columns in the span.  Stable; rows move as copies."""
    def by_keys(r, s):
        """How two rows stand to each other."""
        for col, descending in keys:
            c = compare(look.value((col, r)), look.value((col, s)))
            if c:
                return -c if descending else c
        return 0

    rows = range(span[0][1], span[1][1] + 1)
    writes = []
    for row, source in zip(rows, sorted(rows, key=cmp_to_key(by_keys))):
        for col in range(span[0][0], span[1][0] + 1):
            writes.append(((col, row), look.content((col, source)), look.format((col, source))))
    return writes


def distribution(values, bins, look):
    """Beside each bin the number of values at most the bin and above the bin before; one row further
    the number above the last."""
    col, first, last = bins[0][0], bins[0][1], bins[1][1]
    if col + 1 >= COLS or last + 1 >= ROWS:
        raise BlockFault('Sheet', SheetFault('OutOfSheet', bins))
    numbers = [v[1] for v in (look.value(c) for c in look.filled(values)) if v[0] == 'num']
    limits = []
    for row in range(first, last + 1):
        v = look.value((col, row))
        limits.append(v[1] if v[0] == 'num' else 0)  # a bin whose value isn't a number counts as 0
    writes = []
    for k, limit in enumerate(limits):
        count = sum(1 for v in numbers if v <= limit and (k == 0 or v > limits[k - 1]))
        writes.append(((col + 1, first + k), ('number', count * fixed.ONE), None))
    above = sum(1 for v in numbers if v > limits[-1])
    writes.append(((col + 1, last + 1), ('number', above * fixed.ONE), None))
    return writes


def _test_table(span, inputs):
    """Refuses a table of one row or column, and an input cell within."""
    if span[0][0] == span[1][0] or span[0][1] == span[1][1]:
        raise BlockFault('NoTable')  # one row or one column
    for cell in inputs:
        if in_span(cell, span):
            raise BlockFault('InputInTable', cell)  # names the first given


def _answer(bench, cell):
    """The value of a cell of the bench."""
    v = bench.answer(cell)
    return BLANK if v is None else v


def table_one(span, cell, bench):
    """A table of one input: each value of the first column is tried, and the formulas of the first row are noted."""
    _test_table(span, [cell])
    (c0, r0), (c1, r1) = span
    rows, cols = range(r0 + 1, r1 + 1), range(c0 + 1, c1 + 1)
    inputs = [_answer(bench, (c0, r)) for r in rows]  # read before the first is entered
    writes = []
    for r, v in zip(rows, inputs):
        # a refusal comes at the first try or never (a bench's protection doesn't change), when nothing
        # was entered, so that there is nothing to give back
        bench.try_input(cell, v)
        for c in cols:
            writes.append(((c, r), value_content(_answer(bench, (c, r0))), None))
    bench.give_back()
    return writes


def table_two(span, down, across, bench):
    """A table of two inputs: the values of the first column and row are tried together, and the formula in the corner
    is noted."""
    _test_table(span, [down, across])
    (c0, r0), (c1, r1) = span
    rows, cols = range(r0 + 1, r1 + 1), range(c0 + 1, c1 + 1)
    downs = [_answer(bench, (c0, r)) for r in rows]
    acrosses = [_answer(bench, (c, r0)) for c in cols]
    writes = []
    entered = False
    try:
        for r, v in zip(rows, downs):
            for c, w in zip(cols, acrosses):
                bench.try_input(down, v)
                entered = True
                bench.try_input(across, w)
                writes.append(((c, r), value_content(_answer(bench, (c0, r0))), None))
    except BlockFault:
        if entered:  # after a failed table the input cells hold their old contents
            bench.give_back()
        raise
    bench.give_back()
    return writes
