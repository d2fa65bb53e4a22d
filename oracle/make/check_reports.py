"""Reports of small worksheets: the data of this part of check_calls, and what it must answer. Its own text tells the
lines."""
from ..model import formula, report, wk1
from ..model.address import cell_text, read_cell, read_span, span_text
from ..model.dates import Moment
from ..model.gen import generate
from ..model.sheet import DEFAULT_FORMAT, Saved, State
from ..model.values import BLANK, C_BLANK, ERR, NA, num, string
from .cases import TEXT_BYTES, worked

LAST_DAY = 73050


# ---------------------------------------------------------------- what the program must answer

def bytes_of(word):
    """The bytes that a word spells."""
    return bytes.fromhex(word.decode())


def sum_of(text):
    """The sum of bytes in which each place counts."""
    total = 14695981039346656037
    for byte in text:
        total = (total ^ byte) * 1099511628211 % 2 ** 64
    return total


class Desk:
    """A worksheet, and what a line does with it."""

    def __init__(self):
        self.saved = Saved()

    def generate(self, rows):
        """Takes the cells of a generated worksheet; how many of them have the sheet's format."""
        self.saved.cells = generate(int(rows)).cells
        return sum(state.format == DEFAULT_FORMAT for state in self.saved.cells.values())

    def report(self, *words):
        """The bytes of a report."""
        day, left, right, top, bottom, length = (int(word) for word in words[1:7])
        settings = report.PrintSettings(bytes_of(words[7]), bytes_of(words[8]), left, right, top, bottom, length)
        return report.report(read_span(words[0]), settings, self.saved, Moment(day or None, 0))

    def told(self, is_whole, words):
        """A report as it is printed: whole, or its length and its sum."""
        try:
            held = self.report(*words)
        except report.PrintFault as fault:
            return {'PageTooSmall': b'page too small', 'TooLong': b'too long'}[fault.kind]
        return b'=' + held.hex().encode() if is_whole else b'%d %016x' % (len(held), sum_of(held))

    def line(self, line):
        """What a line comes to: a line of a report, or of a generated worksheet, or none."""
        if line[:1] == b'=':
            self.saved = wk1.read(bytes_of(line[1:]))
            return b''
        head, *words = line.split(b' ')
        return b'%d\n' % self.generate(*words) if head == b'g' else self.told(head == b'q', words) + b'\n'


def answers(lines):
    """The reports of worksheets."""
    desk = Desk()
    for line in lines:
        yield desk.line(line)


# ---------------------------------------------------------------- the worksheets

class Worksheet:
    """A worksheet that is made by lines: `n WIDTH FORMAT` for a new one, `w COLUMN WIDTH` for a column's own width,
    `h COLUMN` to hide one, `m NAME SPAN` for a name, and `c CELL FORMAT CONTENT` for a cell. A content is `b` for
    blank, `n MILLIONTHS`, `l PREFIX TEXT` or `f TEXT VALUE`, where a value is `n MILLIONTHS`, `s TEXT`, `e` for
    ERR or `a` for NA."""

    def __init__(self):
        self.clear(9, 113)

    def clear(self, width, code):
        """A new worksheet with a width and a format."""
        self.saved = Saved()
        self.saved.settings.width, self.saved.settings.format = int(width), int(code)

    def widen(self, col, width):
        """A column gets a width of its own."""
        self.saved.widths[int(col)] = int(width)

    def hide(self, col):
        """A column is hidden."""
        self.saved.hidden.add(int(col))

    def name(self, name, span):
        """A name is made."""
        self.saved.names.create(bytes_of(name), read_span(span))

    def put(self, cell, code, kind, *rest):
        """A cell: `b` for blank, or a number, a label, or a formula with its value."""
        cell = read_cell(cell)
        if kind == b'b':
            content, value = C_BLANK, BLANK
        elif kind == b'n':
            content, value = ('number', int(rest[0])), num(int(rest[0]))
        elif kind == b'l':
            text = bytes_of(rest[1])
            content, value = ('label', int(rest[0]), text), string(text)
        else:
            content, value = ('formula', formula.read(bytes_of(rest[0]), cell, self.saved.names)), value_of(*rest[1:])
        self.saved.cells[cell] = State(content, value, int(code))

    def told(self, lines):
        """The lines that the program answers: a worksheet's file stands before what is asked of it."""
        is_told = False
        for line in lines:
            head, *words = line.split(b' ')
            if head in (b'g', b'p', b'q'):
                yield from [line] if is_told else [b'=' + wk1.write(self.saved).hex().encode(), line]
                is_told = True
            else:
                {b'n': self.clear, b'w': self.widen, b'h': self.hide, b'm': self.name, b'c': self.put}[head](*words)
                is_told = False


def value_of(kind, held=b''):
    """A formula's value."""
    return {b'n': lambda: num(int(held)), b's': lambda: string(bytes_of(held)), b'e': lambda: ERR,
            b'a': lambda: NA}[kind]()


class Reports:
    """Small worksheets, and reports of their ranges."""

    CODES = [255, 255, 255, 0, 2, 34, 49, 66, 113, 114, 115, 116, 117, 118, 127, 130, 143, 241, 244]
    FORMULAS = [b'+A1*2', b'@SUM(A1..B9)', b'+"text"', b'+TOTAL', b'@SUM(RATES)', b'+$B$2', b'@IF(A1>1,"yes",@NA)']

    def __init__(self, r):
        self.r = r

    def sheet(self):
        """A new worksheet: its width and format, names, own widths and hidden columns, and cells near one corner."""
        r = self.r
        self.left, self.top = r.choice([(0, 0), (0, 0), (0, 7), (3, 8180), (250, 8180)])
        corner = self.left, self.top
        near = span_text((corner, (min(self.left + 2, 255), min(self.top + 3, 8191))))
        out = [b'n %d %d' % (r.choice([9, 9, 9, 3, 1, 40, 155, 240]),
                             r.choice([113, 113, 113, 2, 34, 114, 117, 118, 122])),
               b'm %s %s' % (b'TOTAL'.hex().encode(), cell_text(corner)), b'm %s %s' % (b'RATES'.hex().encode(), near)]
        out += [b'w %d %d' % (self.col(), r.choice([1, 2, 3, 12, 20, 72, 73, 200, 240]))
                for _ in range(r.choice([0, 0, 1, 2, 3]))]
        out += [b'h %d' % self.col() for _ in range(r.choice([0, 0, 1, 2]))]
        cells = {(self.col(), min(self.top + r.randrange(12), 8191)) for _ in range(r.choice([0, 2, 6, 12, 16]))}
        return out + [b'c %s %d ' % (cell_text(cell), r.choice(self.CODES)) + self.content() for cell in sorted(cells)]

    def col(self):
        """A column at the block or a little to its right."""
        return min(self.left + self.r.randrange(15), 255)

    def text(self, sizes):
        """A text of one of these lengths, also of bytes that are no ASCII."""
        r = self.r
        size = r.choice(sizes)
        return bytes(r.choice(r.choice([TEXT_BYTES, b'abc ', b'abc ', b'x', b' '])) for _ in range(size))

    def content(self):
        """What a cell holds: mostly a number, else a label or a formula."""
        r = self.r
        number = lambda: r.choice([r.randrange(-9, 999) * 1000000, 500000, 1, 0, -1,
                                   r.randrange(-10 ** 15 + 1, 10 ** 15), 31929000000, 173467103265053])
        label = lambda: b'l %d ' % r.choice(b"'\"^\\|") + self.text([0, 1, 2, 5, 12, 20, 30, 60, 240]).hex().encode()
        value = lambda: r.choice([lambda: b'n %d' % number(), lambda: b's ' + self.text([0, 3, 9, 30]).hex().encode(),
                                  lambda: b'e', lambda: b'a'])()
        spelled = lambda: b'f ' + r.choice(self.FORMULAS).hex().encode() + b' ' + value()
        return r.choice([label, label, label, lambda: b'n %d' % number(), lambda: b'n %d' % number(), spelled, spelled,
                         lambda: b'b'])()

    def running(self):
        """A header or a footer."""
        r = self.r
        if r.randrange(3):
            return r.choice([b'', b'', b'#', b'|#', b'@|Report|page #', b'|@', b'a|b|c|d', b'##|@@', b'|#|',
                             self.text([1, 20, 240])])
        return bytes(r.choice(b'ab |#@') for _ in range(r.choice([3, 30, 100, 240])))

    def asked(self, call):
        """A report of a part of the worksheet, by its length and sum or whole: pages of few lines mostly, and seldom
        one too small."""
        r = self.r
        first = self.col(), min(self.top + r.randrange(4), 8191)
        last = min(first[0] + r.choice([0, 1, 4, 9, 14]), 255), min(first[1] + r.choice([0, 1, 5, 11, 30]), 8191)
        left = r.choice([0, 0, 4, 10, 76, 190])
        right = left + r.choice([-1, 0, 1, 9, 20, 38, 72, 72, 72, 50])
        top, bottom = r.choice([0, 0, 1, 2, 5, 10]), r.choice([0, 1, 2, 10])
        length = r.choice([top + bottom + 6, top + bottom + 7, top + bottom + 7, top + bottom + 8, top + bottom + 12,
                           66, 66, 100])
        day = r.choice([0, 1, 60, 31929, LAST_DAY])
        words = (day, left, min(max(right, 0), 240), top, bottom, max(10, length))
        out = call + b' ' + span_text((first, last)) + b''.join(b' %d' % word for word in words)
        return out + b''.join(b' ' + self.running().hex().encode() for _ in range(2))

    def reports(self, count):
        """So many reports, each of a worksheet of its own, or some of one; one in forty is printed whole."""
        out = []
        for number in range(count):
            out += (self.sheet() if not out or self.r.randrange(5)
                    else []) + [self.asked(b'p' if number % 40 else b'q')]
        return out


# a worksheet without cells, and reports of it that hold the most bytes that a file may, and more
MOST = [b'n 9 113', b'p A1..BL8192 0 0 1 28 29 64  ', b'p A1..BL8192 0 0 1 28 29 64 78 ']


def generated():
    """Generated worksheets: in a format that shows numbers and values with two decimals, and in one that shows
    formulas."""
    for rows in [1, 2, 3, 19, 100, 1000, 8000]:
        for code in (2, 117):
            yield b'n 20 %d' % code
            yield b'g %d' % rows
            yield b'%s A1..D%d 0 0 80 0 0 100  ' % (b'q' if rows < 20 else b'p', rows + 1)


def data(r):
    """The worked lines, 1,000 reports of random worksheets, those at the most bytes, and those of generated
    worksheets."""
    lines = [*worked('reports').splitlines(), *Reports(r).reports(1000), *MOST, *generated()]
    return b''.join(line + b'\n' for line in Worksheet().told(lines))
