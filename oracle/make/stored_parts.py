"""Parts of the runs that `stored` holds: keys that type, and files that they begin with."""
import struct

from ..model import fixed, formula, wk1
from ..model.address import cell_text
from ..model.keys import typed
from ..model.session import VALUE_BEGINS
from ..model.sheet import DEFAULT_FORMAT, Saved, State
from ..model.values import num, string

# what stands in a cell becomes a label of the same text
AS_LABEL = b"{HOME}'~"
LONGEST = 240


def goto(cell):
    """Keys that go to a cell."""
    return b'{GOTO}' + cell_text(cell) + b'~'


def saved_as(name):
    """Keys that save the sheet in a file that isn't there."""
    return b'/FS' + name + b'~'


def named(name, span):
    """Keys that give a span, as it is typed, a name."""
    return b'/RNC' + typed(name) + b'~' + span + b'~'


def as_value(text):
    """A formula's text as it may be typed: it begins with a byte that begins a value, and has no more bytes than a
    line."""
    return (text if text and text[0] in VALUE_BEGINS else b'+' + text)[:LONGEST]


def is_value(text, at, names):
    """Whether a line that is finished in a cell spells a number or a formula."""
    if isinstance(fixed.read_decimal(text), int):
        return True
    try:
        formula.read(text, at, names)
        return True
    except formula.ParseFault:
        return False


def entered(text, at, names):
    """Keys that enter a formula in a cell. What spells none becomes a label, with a mark at the place of its fault, or
    without the bytes around it where there is no room for a mark."""
    text = as_value(text)
    if is_value(text, at, names):
        return typed(text) + b'~'
    return typed(text) + b'~' + (b'?' if len(text) < LONGEST - 1 else b'{BS}{DEL}') + AS_LABEL + b'{BREAK}'


def in_parts(items, most):
    """A list in parts of at most so many items."""
    return (items[at:at + most] for at in range(0, len(items), most))


# ---------------------------------------------------------------- files

# the first record of a file, and the last
EMPTY = bytes.fromhex('00000200060401000000')


def of_number(value, code=DEFAULT_FORMAT):
    """The state of a cell with a number."""
    return State(('number', value), num(value), code)


def of_label(text, prefix=0x27, code=DEFAULT_FORMAT):
    """The state of a cell with a label."""
    return State(('label', prefix, text), string(text), code)


def of_formula(tree, code=DEFAULT_FORMAT):
    """A formula, whose value is found when its file is read."""
    return State(('formula', tree), num(0), code)


def file_of(cells, **others):
    """A file with these cells, and what else a sheet keeps."""
    return wk1.write(Saved(cells, **others))


def number_record(cell, bits):
    """The record of a number whose double has these bytes."""
    return struct.pack('<HHBHH', wk1.NUMBER, 13, DEFAULT_FORMAT, *cell) + bits


def formula_file(cell, code):
    """A file with a formula of this code alone."""
    head = struct.pack('<HHBHHdH', wk1.FORMULA, 15 + len(code), DEFAULT_FORMAT, *cell, 0, len(code))
    return EMPTY[:-4] + head + code + EMPTY[-4:]


def name_file(name):
    """A file with a name of A1 alone; the name may be any bytes, and those past its room are left out."""
    return EMPTY[:-4] + struct.pack('<HH16s8x', wk1.NAME, 24, name[:16]) + EMPTY[-4:]


def starting_with(data, keys, *words):
    """The words, keys and folder of a run that begins with a file."""
    return ['--file', 'START', '--show', 'last', *words], keys, {'START.WK1': data}
