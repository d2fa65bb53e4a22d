"""What the tests of the worksheet's half are made with: a sheet that lines are typed into, and faults that must
come."""
from ..model import fixed, formula, names, sheet
from ..model.address import read_cell, read_span
from ..model.dates import Moment
from ..model.evaluate import glance, Scene, Tally
from ..model.sheet import Sheet
from ..model.values import num

MIL = 1_000_000
NOWHERE = Moment(None, 0)
NAMES = names.Names()


def N(x):
    """A decimal in millionths."""
    v = fixed.read_decimal(str(x).encode())
    return num(v)


def scene(cursor=(0, 0), now=NOWHERE):
    """What a formula is evaluated with: the pointer and the moment."""
    return Scene(cursor, now)


class Bed:
    """A sheet with the work of a session, without keys."""

    def __init__(self, sheet=None):
        self.s = sheet or Sheet()
        self.t = Tally()

    def sc(self):
        """The scene at the pointer."""
        return scene(self.s.settings.pointer)

    def after(self):
        """Recalculates, where that is automatic."""
        if self.s.settings.automatic:
            self.s.calc(self.sc(), self.t)

    def type(self, where, line):
        """Enter one line at a cell as READY would begin it; returns a ParseFault or None."""
        cell = read_cell(where.encode())
        line = line if isinstance(line, bytes) else line.encode('latin-1')
        if line[0] in b'0123456789+-.(@#$':
            d = fixed.read_decimal(line)
            if d == fixed.TOO_LARGE:
                return formula.ParseFault(6, 0)
            if d != fixed.NOT_NUMBER:
                content = ('number', d)
            else:
                try:
                    content = ('formula', formula.read(line, cell, self.s.names))
                except formula.ParseFault as fault:
                    return fault
        elif line[:1] in (b"'", b'"', b'^', b'\\', b'|'):
            content = ('label', line[0], line[1:])
        else:
            content = ('label', self.s.settings.prefix, line)
        self.s.enter_line(cell, content, self.sc(), self.t)
        self.after()

    def v(self, where):
        """The value of a cell."""
        return self.s.value(read_cell(where.encode()))

    def text(self, where):
        """The entry of a cell."""
        return self.s.text_of(read_cell(where.encode())).decode('latin-1')

    def calc(self):
        """Recalculates."""
        self.s.calc(self.sc(), self.t)


def span(t):
    """The span of a name."""
    return read_span(t.encode())


def cell(t):
    """The cell of a name."""
    return read_cell(t.encode())


def value_of(line, bed=None, at='IV8192'):
    """The value of a line in a sheet."""
    bed = bed or Bed()
    e = formula.read(line.encode('latin-1'), cell(at), bed.s.names)
    return glance(e, cell(at), bed.s, bed.sc())


def fault_of(line, nm=NAMES):
    """The fault with which a line is refused."""
    try:
        formula.read(line if isinstance(line, bytes) else line.encode(), (0, 0), nm)
    except formula.ParseFault as f:
        return (f.number, f.at)
    return None


def raises(kind, call, *args):
    """The fault of a kind that a call must end with."""
    try:
        call(*args)
    except kind as f:
        return f
    raise AssertionError('no %s' % kind)
