"""A worksheet file as lines of text (this project's own): the settings, columns, names, and each cell in row order.

Fields are parted by tabs, and empty ones at the end of a line are left out. `python3 -B -m oracle.model.listing <
FILE.WK1` prints the lines, or tells the fault."""
import sys

from . import fixed, wk1
from .address import cell_text, col_text, row_order, span_text
from .cellformat import indicator
from .sheet import Sheet

MOST_READ = wk1.MOST + 1
BAD_WORD, FAULTY = 1, 2  # statuses
ORDERS = {'natural': b'Natural', 'columnwise': b'Columnwise', 'rowwise': b'Rowwise'}
PROTECTED = 0x80


def value_text(value):
    """A value as it is listed."""
    if value[0] == 'num':
        return fixed.plain(value[1])
    if value[0] == 'str':
        return b'"' + value[1] + b'"'
    return {'err': b'ERR', 'na': b'NA', 'blank': b''}[value[0]]


def lines(saved):
    """The fields of each line."""
    settings = saved.settings
    yield b'pointer', cell_text(settings.pointer)
    mode = b'Automatic' if settings.automatic else b'Manual'
    yield b'recalculation', ORDERS[settings.order], mode, b'%d' % settings.passes
    yield b'prefix', bytes([settings.prefix])
    yield b'format', indicator(settings.format)
    yield b'width', b'%d' % settings.width
    yield b'protection', b'On' if settings.protection else b'Off'
    for col in sorted(set(saved.widths) | set(saved.hidden)):
        width = b'%d' % saved.widths[col] if col in saved.widths else b''
        yield b'column', col_text(col), width, b'Hidden' if col in saved.hidden else b''
    for name, span in saved.names.items():
        yield b'name', name, span_text(span)
    sheet = Sheet.restore(saved)
    for cell in sorted(saved.cells, key=row_order):
        state = saved.cells[cell]
        value = value_text(state.value) if state.content[0] == 'formula' else b''
        mark = b'' if state.format & PROTECTED else b'U'
        yield cell_text(cell), sheet.text_of(cell), value, indicator(state.format), mark


def listing(saved):
    """The lines of a sheet."""
    return b''.join(b'\t'.join(fields).rstrip(b'\t') + b'\n' for fields in lines(saved))


def told(data):
    """What is written of a file's bytes: the lines, the note, and the status."""
    try:
        return listing(wk1.read(data[:MOST_READ])), b'', 0
    except wk1.Wk1Fault as fault:
        return b'', b'1-2-3-list: %s\n' % fault.text().encode(), FAULTY


def main():
    """Lists the file on standard input."""
    out, note, status = told(sys.stdin.buffer.read(MOST_READ))
    sys.stdout.buffer.write(out)
    sys.stderr.buffer.write(note)
    return status


if __name__ == '__main__':
    sys.exit(main())
