"""References after a move, or after rows or columns were inserted or deleted.  A change is
('InsertRows'|'InsertColumns'|'DeleteRows'| 'DeleteColumns', first line, count)."""

from .address import COLS, ROWS, height_of, in_span, ordered, ref_of, resolve, span_at, width_of
from .values import ERR_EXPR


def rebuild(expr, old_at, new_at, where):
    """`where(cell)` gives the new place of a referenced cell, or None where it is lost."""
    kind = expr[0]

    def ref(r):
        """A reference to the new place, or None."""
        target = where(resolve(r, old_at))
        if target is None:
            return None
        return ref_of(target, new_at, r[0][0] == 'abs', r[1][0] == 'abs')

    if kind == 'cell':
        r = ref(expr[1])
        return ERR_EXPR if r is None else ('cell', r)
    if kind == 'span':
        # corner by corner; a lost corner makes the whole operand @ERR
        a, b = ref(expr[1]), ref(expr[2])
        return ERR_EXPR if a is None or b is None else ('span', a, b)
    if kind in ('group', 'neg', 'not'):
        return (kind, rebuild(expr[1], old_at, new_at, where))
    if kind == 'bin':
        return ('bin', expr[1], rebuild(expr[2], old_at, new_at, where), rebuild(expr[3], old_at, new_at, where))
    if kind == 'call':
        return ('call', expr[1], [rebuild(a, old_at, new_at, where) for a in expr[2]])
    return expr


def move_place(cell, source, to):
    """Where a cell is after a move of `source` to `to`: a moved cell follows, an overwritten one is
    lost, any other stays."""
    if in_span(cell, source):
        return (cell[0] + to[0] - source[0][0], cell[1] + to[1] - source[0][1])
    target = span_at(to, width_of(source), height_of(source))
    return None if in_span(cell, target) else cell


def line_place(line, lines, insert, first, count):
    """Where a line is after an insert or delete; None where it is lost."""
    if insert:
        if line < first:
            return line
        return line + count if line + count < lines else None
    if line < first:
        return line
    return None if line < first + count else line - count


def change_place(cell, change):
    """Where a cell is after a change of lines, or None."""
    kind, first, count = change
    insert = kind.startswith('Insert')
    if kind.endswith('Rows'):
        row = line_place(cell[1], ROWS, insert, first, count)
        return None if row is None else (cell[0], row)
    col = line_place(cell[0], COLS, insert, first, count)
    return None if col is None else (col, cell[1])


def moved(expr, old_at, new_at, source, to):
    """A formula after a move."""
    return rebuild(expr, old_at, new_at, lambda cell: move_place(cell, source, to))


def shifted(expr, old_at, new_at, change):
    """A formula after a change of lines."""
    return rebuild(expr, old_at, new_at, lambda cell: change_place(cell, change))


def span_with(span, where):
    """A span whose corners go to their new places, or None where one is lost."""
    a, b = where(span[0]), where(span[1])
    if a is None or b is None:
        return None
    return ordered(a, b)  # a span's first corner is top left (corners are put in order)


def span_moved(span, source, to):
    """A span after a move."""
    return span_with(span, lambda cell: move_place(cell, source, to))


def span_shifted(span, change):
    """A span after a change of lines."""
    return span_with(span, lambda cell: change_place(cell, change))
