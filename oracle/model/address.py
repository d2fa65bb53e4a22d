"""Cells, spans and references as the manual writes them.  A cell is (col, row), a span (first, last)."""

COLS = 256
ROWS = 8192


class NotAnAddress(Exception):
    """A text that isn't one; `at` is the place of the first byte with which none goes on."""

    def __init__(self, at):
        super().__init__(at)
        self.at = at


def row_order(cell):
    """By row, then by column."""
    return (cell[1], cell[0])


def col_text(col):
    """A column's letters."""
    if col < 26:
        return bytes([65 + col])
    return bytes([64 + col // 26, 65 + col % 26])


def cell_text(cell):
    """A cell's address."""
    return col_text(cell[0]) + str(cell[1] + 1).encode()


def span_text(span):
    """A span as its corners with two dots between."""
    return cell_text(span[0]) + b'..' + cell_text(span[1])


def _letter(byte):
    """The number of a letter from 0, or None."""
    if 65 <= byte <= 90:
        return byte - 65
    if 97 <= byte <= 122:
        return byte - 97
    return None


def read_cell_at(data, at):
    """Reads the longest cell that begins at `at`: (cell, next place).  NotAnAddress names the
    first byte with which no cell goes on, or the text's length."""
    def byte(i):
        """A byte of the text, or -1 behind it."""
        return data[i] if i < len(data) else -1

    first = _letter(byte(at)) if at < len(data) else None
    if first is None:
        raise NotAnAddress(at)
    col = first
    i = at + 1
    second = _letter(byte(i)) if i < len(data) else None
    if second is not None:
        two = (first + 1) * 26 + second
        if two > 255:  # past IV
            raise NotAnAddress(i)
        col = two
        i += 1
    start = i
    row = 0
    while i < len(data) and 48 <= data[i] <= 57:
        nxt = row * 10 + data[i] - 48
        if nxt == 0 or nxt > ROWS:  # no leading zero, 1 to 8192
            break
        row = nxt
        i += 1
    if i == start:
        raise NotAnAddress(i)
    return (col, row - 1), i


def read_cell(data):
    """The cell that the whole text spells."""
    cell, i = read_cell_at(data, 0)
    if i != len(data):
        raise NotAnAddress(i)
    return cell


def ordered(a, b):
    """The span of two corners, put in order."""
    return ((min(a[0], b[0]), min(a[1], b[1])), (max(a[0], b[0]), max(a[1], b[1])))


def read_span(data):
    """One cell, or two cells with one or two dots between them; puts corners in order."""
    one, i = read_cell_at(data, 0)
    if i == len(data):
        return (one, one)
    if data[i] != 0x2E:
        raise NotAnAddress(i)
    i += 1
    if i < len(data) and data[i] == 0x2E:
        i += 1
    two, i = read_cell_at(data, i)
    if i != len(data):
        raise NotAnAddress(i)
    return ordered(one, two)


def in_span(cell, span):
    """Whether a cell stands in a span."""
    return span[0][0] <= cell[0] <= span[1][0] and span[0][1] <= cell[1] <= span[1][1]


def cells_of(span):
    """All cells of a span in row order."""
    for row in range(span[0][1], span[1][1] + 1):
        for col in range(span[0][0], span[1][0] + 1):
            yield (col, row)


def width_of(span):
    """How many columns a span has."""
    return span[1][0] - span[0][0] + 1


def height_of(span):
    """How many rows a span has."""
    return span[1][1] - span[0][1] + 1


def area(span):
    """How many cells a span has."""
    return width_of(span) * height_of(span)


def span_at(cell, width, height):
    """The span of this size at `cell`, or None where it leaves the sheet."""
    last = (cell[0] + width - 1, cell[1] + height - 1)
    if last[0] >= COLS or last[1] >= ROWS:
        return None
    return (cell, last)


def axis_place(axis, own, size):
    """An absolute number, or an offset added modulo 256 or 8192."""
    return axis[1] if axis[0] == 'abs' else (own + axis[1]) % size


def resolve(ref, at):
    """The cell that a reference in a cell leads to."""
    return (axis_place(ref[0], at[0], COLS), axis_place(ref[1], at[1], ROWS))


def ref_of(target, at, fixed_col, fixed_row):
    """The reference in a cell to another, with columns and rows absolute or not."""
    col = ('abs', target[0]) if fixed_col else ('off', (target[0] - at[0]) % COLS)
    row = ('abs', target[1]) if fixed_row else ('off', (target[1] - at[1]) % ROWS)
    return (col, row)
