"""Sheets that are made by lines."""
from ..model import fixed, formula
from ..model.address import read_cell, read_span
from ..model.dates import Moment
from ..model.evaluate import Scene, Tally
from ..model.sheet import Sheet, SheetFault
from ..model.values import C_BLANK

# the pointer in C2, and noon and after on 1 June 1987
SCENE = Scene((2, 1), Moment(31929, 50700))
LINE_EDITS = {b'ir': Sheet.insert_rows, b'ic': Sheet.insert_columns, b'dr': Sheet.delete_rows,
              b'dc': Sheet.delete_columns}


class Desk:
    """A sheet that lines tell. `=A1 TEXT` enters what the text spells, `eA1..B2` erases, `cA1..B2 C1..D2` copies,
    `fA1..B2 CODE` sets the format code, `pA1..B2` protects and `uA1..B2` takes protection away. `xA1 CODE TEXT` makes a
    list of writes, which tabs part; the code is a format byte, or `-` for the cell's own. `>A1..B2 C3` moves so that
    the first corner comes to the cell; `irA2..A3` and `icB1..C1` insert rows and columns in front of a span, as many as
    it has, and `drA2..A3` and `dcB1..C1` delete its own. `+A1..B2 NAME` names a span and `-NAME` takes a name away.
    `wB1 12` gives column B a width of its own, or takes it away at 0; `hB1` hides it and `vB1` shows it. `g113 9` sets
    the sheet's format byte and width, or `g113` the byte alone, and `aB7` the pointer. `sLETTERS` changes settings
    letter by letter: A and M are the modes Automatic and Manual, P and Q protection on and off, N, C and R the orders,
    and a digit the passes. `!` recalculates, and so does each edit of contents in Automatic mode."""

    def __init__(self, sheet=None):
        self.sheet = sheet or Sheet()
        self.tally = Tally()

    def content_of(self, cell, text):
        """The content that a text spells."""
        if not text:
            return C_BLANK
        if text[:1] in (b"'", b'"', b'^', b'\\', b'|'):
            return ('label', text[0], text[1:])
        number = fixed.read_decimal(text)
        if isinstance(number, int):
            return ('number', number)
        return ('formula', formula.read(text, cell, self.sheet.names))

    def writes_of(self, text):
        """A list of writes, which tabs part."""
        parts = [part.split(b' ', 2) for part in text.split(b'\t')]
        return [(read_cell(cell), self.content_of(read_cell(cell), held), None if code == b'-' else int(code))
                for cell, code, held in parts]

    def calc(self):
        """Recalculates."""
        self.sheet.calc(SCENE, self.tally)

    def edit(self, line):
        """What an edit of contents does; a recalculation follows it in Automatic mode."""
        sheet, rest = self.sheet, line[1:]
        first, _, second = rest.partition(b' ')
        if line[:2] in LINE_EDITS:
            (left, top), (right, bottom) = read_span(line[2:])
            at, count = (top, bottom - top + 1) if line[1:2] == b'r' else (left, right - left + 1)
            LINE_EDITS[line[:2]](sheet, at, count)
        elif line[:1] == b'=':
            sheet.enter_line(read_cell(first), self.content_of(read_cell(first), second), SCENE, self.tally)
        elif line[:1] == b'e':
            sheet.erase(read_span(rest))
        elif line[:1] == b'c':
            sheet.copy_span(read_span(first), read_span(second))
        elif line[:1] == b'>':
            sheet.shift(read_span(first), read_cell(second))
        else:
            sheet.write(self.writes_of(rest))
        if sheet.settings.automatic:
            self.calc()

    def set(self, letters):
        """Settings by letters."""
        settings = self.sheet.settings
        for letter in letters.decode():
            if letter in 'NCR':
                self.sheet.set_order({'N': 'natural', 'C': 'columnwise', 'R': 'rowwise'}[letter])
            elif letter in 'AM':
                settings.automatic = letter == 'A'
            elif letter in 'PQ':
                settings.protection = letter == 'P'
            else:
                settings.passes = int(letter)

    def set_global(self, byte, width):
        """The sheet's format byte and width."""
        self.sheet.settings.format = int(byte)
        if width:
            self.sheet.settings.width = int(width)

    def line(self, line):
        """Does what a line tells; an edit that is refused does nothing."""
        sheet, head, rest = self.sheet, line[:1], line[1:]
        first, _, second = rest.partition(b' ')
        if head in b'=ecx>id':
            try:
                self.edit(line)
            except SheetFault:
                pass
            return
        column = lambda: read_cell(first)[0]
        {b'!': self.calc, b's': lambda: self.set(rest), b'f': lambda: sheet.set_format(read_span(first), int(second)),
         b'p': lambda: sheet.set_protected(read_span(rest), True),
         b'u': lambda: sheet.set_protected(read_span(rest), False),
         b'+': lambda: sheet.create_name(second, read_span(first)), b'-': lambda: sheet.delete_name(rest),
         b'w': lambda: sheet.set_width(column(), int(second) or None),
         b'h': lambda: sheet.set_hidden(column(), column(), True),
         b'v': lambda: sheet.set_hidden(column(), column(), False), b'g': lambda: self.set_global(first, second),
         b'a': lambda: setattr(sheet.settings, 'pointer', read_cell(rest))}[head]()
