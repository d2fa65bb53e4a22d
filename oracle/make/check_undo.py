"""Undo: the data of this part of check_calls, and what it must answer. Its own text tells the lines; those of
worked/undo and of `cases.Sheets` are told by them."""
from ..model import wk1
from ..model.address import cell_text, read_span, row_order
from ..model.evaluate import Tally
from ..model.sheet import DEFAULT_FORMAT, Saved, Sheet, State
from ..model.undo import History, shape
from ..model.values import num
from .cases import Sheets, worked
from .check_reports import sum_of
from .edits import SCENE, Desk


# ---------------------------------------------------------------- what the program must answer

class UndoDesk:
    """A sheet, the count of its evaluations, and its history."""

    def __init__(self):
        self.sheet, self.tally, self.history = Sheet(), Tally(), History()

    def follow(self, line):
        """Does what a line says, and tells what came of it."""
        head, rest = line[:1], line[1:]
        if head == b'(':
            self.history.begin(self.sheet)
            return b'begun '
        if head == b')':
            if not self.history.has_begun():
                return b'none '
            return b'kept ' if self.history.end(self.sheet) else b'alike '
        if head == b'<':
            return b'undone ' if self.history.undo(self.sheet) else b'none '
        if head == b'!':
            self.sheet.calc(SCENE, self.tally)
        elif head == b'=':
            self.sheet = Sheet.restore(wk1.read(bytes.fromhex(rest.decode())))
        elif head == b'+':
            cells = wk1.read(bytes.fromhex(rest.decode())).cells
            self.sheet.write([(cell, cells[cell].content, cells[cell].format) for cell in sorted(cells, key=row_order)])
        else:
            self.sheet.erase(read_span(rest))
        return b''

    def told(self):
        """How many states are kept, the count of evaluations, and the marks."""
        return b'%d %d' % (len(self.history),
                           self.tally.count) + b' CIRC' * self.sheet.circ + b' CALC' * self.sheet.stale + b'\n'


def answers(lines):
    """What came of each line."""
    for line in lines:
        if line == b'?':
            yield b'%016x\n' % sum_of(wk1.write(desk.sheet.snapshot()))
        elif line == b':':
            desk = UndoDesk()
            yield desk.told()
        else:
            yield desk.follow(line) + desk.told()


# ---------------------------------------------------------------- the lines

def file_of(saved):
    """The bytes of a sheet's file in hexadecimal digits."""
    return wk1.write(saved).hex().encode()


def changes(before, after):
    """The lines that make a sheet out of another: its cells that change are written, and others are erased, where
    nothing else is new."""
    rest = lambda saved: (shape(saved)[1:], saved.settings.pointer)
    if rest(before) != rest(after) or after.settings.protection:
        return [b'=' + file_of(after)]
    held = lambda saved, cell: cell in saved.cells and (saved.cells[cell].content, saved.cells[cell].format)
    written = {cell: state for cell, state in after.cells.items() if held(before, cell) != held(after, cell)}
    gone = sorted(cell for cell in before.cells if cell not in after.cells)
    written.update({cell: State(('number', 0), num(0), DEFAULT_FORMAT) for cell in gone
                    if before.cells[cell].format != DEFAULT_FORMAT})
    return ([b'+' + file_of(Saved(written))] if written else []) + [b'-' + cell_text(cell) for cell in gone]


class Commands(Sheets):
    """Commands over small sheets. What is done is followed, so that the next edit means something."""

    def fresh(self):
        """An empty sheet without kept states."""
        self.desk = UndoDesk()
        return [b':']

    def do(self, *lines):
        """What the program is told of lines, each of which is done: a recalculation follows an edit in Automatic mode.
        Then it is asked for the sheet."""
        out = []
        for line in lines:
            told = [line]
            if line not in (b'(', b')', b'<', b'!'):
                before = self.desk.sheet.snapshot()
                other = Desk(Sheet.restore(before))
                other.line(line)
                told = changes(before, other.sheet.snapshot()) + [b'!'] * other.sheet.settings.automatic
            for part in told:
                self.desk.follow(part)
            out += told + [b'?']
        return out

    def worked(self):
        """The worked lines."""
        return sum((self.fresh() if line == b':' else self.do(line) for line in worked('undo').splitlines()), [])

    def command(self):
        """A command of up to two edits, one that changes the pointer or nothing, or one that is given up for the
        next."""
        r = self.r
        out = self.do(b'(')
        for _ in range(r.choice([0, 1, 1, 1, 1, 2])):
            name = r.choice([name for name, _ in self.desk.sheet.names.items()] or [b''])
            out += self.do(r.choice([self.edit] * 8 + [
                self.column, lambda: b'a' + self.cell(), lambda: b'-' + name if name else b'!',
                lambda: b'g%d %d' % (r.choice([113, 2]), r.choice([9, 10]))])())
        return out + self.do(b')') if r.randrange(16) else out

    def commands(self, count):
        """So many commands with undos between them: a fresh sheet for each few, whose commands are undone at its
        end."""
        r, out = self.r, []
        while count:
            many = min(count, r.choice([1, 3, 6, 12, 26]))
            out += self.fresh() + self.do(b'x' + b'\t'.join(self.write() for _ in range(r.randrange(1, 9))))
            for _ in range(many):
                out += self.command()
                if r.randrange(6) == 0:
                    out += self.do(b'<') + (self.do(b'!') if r.randrange(2) else [])
            out += self.do(*[b'<'] * r.choice([0, 1, len(self.desk.history) + 1]), b'!')
            count -= many
        return out

    def wide(self, formulas):
        """The lines of 2,000 cells, row by row, numbers or by turns a number and a formula that adds one to it; and 20
        commands that each enter a number, all of which are undone."""
        out = self.fresh()
        for row in range(40):
            texts = [b'%d' % (row * 50 + col + 1) for col in range(50)]
            texts[1::2] = [b'+' + cell_text((col - 1, row)) + b'+1'
                           for col in range(1, 50, 2)] if formulas else texts[1::2]
            out += self.do(b'x' + b'\t'.join(cell_text((col, row)) + b' - ' + text for col, text in enumerate(texts)))
        for command in range(20):
            out += self.do(b'(', b'=A%d %d' % (2 * command + 1, command + 2), b')')
        return out + self.do(*[b'<'] * 21)


def data(r):
    """The worked lines, 1,000 commands with undos, and 40 over wider sheets."""
    of = Commands(r)
    return b''.join(line + b'\n' for line in of.worked() + of.commands(1000) + of.wide(False) + of.wide(True))
