"""What macros read and write of cells, and their faults."""
from . import cellformat, formula

ERR_CONTENT = ('formula', ('call', 0x20, []))
NA_CONTENT = ('formula', ('call', 0x1F, []))
LIMIT = 999_999_999_999_999
APOSTROPHE = ord("'")


class MacroFault(Exception):
    """M1 to M5."""

    def __init__(self, number):
        self.number = number


def cut(millionths):
    """Whole arguments are cut toward zero."""
    return abs(millionths) // 1_000_000 * (1 if millionths >= 0 else -1)


def content_of_value(value):
    """A label that a command word writes has the prefix `'`; ERR and NA are put as `@ERR` and `@NA`."""
    if value[0] == 'num':
        return ('number', value[1])
    if value[0] == 'str':
        return ('label', APOSTROPHE, value[1])
    if value[0] == 'err':
        return ERR_CONTENT
    if value[0] == 'na':
        return NA_CONTENT
    return ('number', 0)                     # a glance never answers Blank


def state_of(sheet, cell):
    """The state of a cell, or None."""
    return sheet.cells.get(cell)


def value_of(sheet, cell):
    """The value of a cell."""
    st = sheet.cells.get(cell)
    return st.value if st is not None else ('blank',)


def is_protected(sheet, cell):
    """Whether a cell may not be written."""
    st = sheet.cells.get(cell)
    byte = st.format if st is not None else 0xFF
    return sheet.settings.protection and byte & 0x80 != 0


def macro_text(sheet, cell):
    """A label's text without its prefix, or a formula's text value; any other content ends the routine (None)."""
    st = sheet.cells.get(cell)
    if st is None:
        return None
    if st.content[0] == 'label':
        return st.content[2]
    if st.content[0] == 'formula' and st.value[0] == 'str':
        return st.value[1]
    return None


def past(k, b, s):
    """Whether a count is behind its last number, in the step's direction."""
    return k > b if s > 0 else k < b


def shown_cell(sheet, cell, width, byte):
    """shown(value, format, width) of a cell's content.  Used by the screen and by CONTENTS.
    This project's choice: Hidden blanks a label and a text value too."""
    st = sheet.cells.get(cell)
    if st is None:
        return b' ' * width
    text = formula.print_(st.content[1], cell, sheet.names) if st.content[0] == 'formula' else b''
    return cellformat.shown(st.content, st.value, byte, width, sheet.settings.format, text)


MASK = bytes(b if b < 127 else ord('?') for b in range(256))


def mask(data):
    """Bytes of 127 and above are shown as `?`."""
    return data.translate(MASK)
