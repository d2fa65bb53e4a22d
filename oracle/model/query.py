"""Queries of the manual's Data menu.  Writes are lists of (cell, content, format or None)."""

from .address import ROWS, cells_of, height_of
from .evaluate import field_column, fields, label_text, matches, query_fault
from .values import C_BLANK, value_content


class QueryFault(Exception):
    """kind 'NoFieldRow' (Q1), 'FieldAbsent' (Q2, payload the cell), 'OutputFull' (Q3, the number)."""

    def __init__(self, kind, payload=None):
        super().__init__(kind, payload)
        self.kind = kind
        self.payload = payload


def select(span, criterion, look, scene):
    """The first cells of the chosen records, in order."""
    fault = query_fault(span, criterion, look)
    if fault:
        raise QueryFault(*fault)
    return [(span[0][0], row) for row in range(span[0][1] + 1, span[1][1] + 1)
            if matches(span, criterion, row, look, scene) == 'Yes']


def extract(span, criterion, output, unique, look, scene):
    """The records that match, or each once, below the output's names."""
    chosen = select(span, criterion, look, scene)
    names = fields(span, look)
    top = output[0][1]
    columns = []  # (output column, input column) for each named field
    for col in range(output[0][0], output[1][0] + 1):
        if label_text(look, (col, top)) is None:
            continue  # a cell that is no label names nothing
        place = field_column(names, look, (col, top))
        if place is None:
            raise QueryFault('FieldAbsent', (col, top))  # the first label that is no field
        columns.append((col, span[0][0] + place))
    records = []
    seen = []
    for _, row in chosen:
        values = [look.value((c, row)) for _, c in columns]
        if unique:
            if values in seen:
                continue  # written values equal to an earlier one's
            seen.append(values)
        records.append(row)
    # an output of one row reaches to the sheet's end
    last = ROWS - 1 if height_of(output) == 1 else output[1][1]
    if len(records) > last - top:
        raise QueryFault('OutputFull', len(records))
    writes = []
    if last > top:
        for cell in cells_of(((output[0][0], top + 1), (output[1][0], last))):
            writes.append((cell, C_BLANK, None))  # the rest is erased first, with no format byte
    for k, row in enumerate(records):
        for col, c in columns:
            writes.append(((col, top + 1 + k), value_content(look.value((c, row))), look.format((c, row))))
    return writes


def delete(span, criterion, look, scene):
    """Query Delete: the matching records leave, the others move up as copies of content and
    format, the rest is erased; every cell of the input below its first row is written."""
    gone = {row for _, row in select(span, criterion, look, scene)}
    first = span[0][1] + 1
    kept = [row for row in range(first, span[1][1] + 1) if row not in gone]
    writes = []
    for k in range(span[1][1] - span[0][1]):
        for col in range(span[0][0], span[1][0] + 1):
            if k < len(kept):
                source = (col, kept[k])
                writes.append(((col, first + k), look.content(source), look.format(source)))
            else:
                writes.append(((col, first + k), C_BLANK, None))
    return writes
