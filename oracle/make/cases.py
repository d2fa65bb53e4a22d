"""What the data of check_calls and the stored runs draw from: worked lines, and random ones made from a seed."""
import os
import struct

from ..model import fixed, formula
from ..model.address import cell_text, col_text, height_of, read_cell, span_text, width_of
from ..model.formula import COUNTED, FUNCTIONS
from ..model.names import Names
from .edits import Desk

SEED = 1987
HERE = os.path.dirname(os.path.dirname(os.path.abspath(__file__)))
OPERATORS = [b'^', b'*', b'/', b'+', b'-', b'=', b'<>', b'<', b'>', b'<=', b'>=', b'#AND#', b'#OR#', b'&']
TEXT_BYTES = bytes(range(32, 127)) + bytes([128, 163, 200, 225, 255])
WORDS = [b'FIG', b'c2', b'type', b'address', b'12:30', b'a b  c', b'1-Jun-87', b' 7 ', b'', b'Tax', b'width', b'B4',
         b'?', b'7.5']


def worked(name):
    """The worked lines of a name."""
    with open(os.path.join(HERE, 'worked', name), 'rb') as it:
        return it.read()


def decimal(r):
    """A decimal of any form: few digits or many, with zeros at either end, or too large."""
    return r.choice([
        lambda: b'%d' % r.randrange(100),
        lambda: b'%.*f' % (r.randrange(1, 7), r.uniform(0, 10 ** r.randrange(1, 6))),
        lambda: b'.%d' % r.randrange(1, 10 ** r.randrange(1, 9)),
        lambda: b'%d.' % r.randrange(100000),
        lambda: b'0' * r.randrange(1, 4) + b'%d.%d' % (r.randrange(1000), r.randrange(1000)),
        lambda: r.choice([b'0', b'1', b'0.0000005', b'0.00000049', b'999999999.999999', b'1000000000', b'127',
                          b'8191']),
    ])()


def quoted(r, words=WORDS):
    """A text in quotes."""
    text = r.choice(words) if r.randrange(2) else bytes(r.choice(TEXT_BYTES) for _ in range(r.randrange(12)))
    return b'"' + text.replace(b'"', b"'") + b'"'


def any_double(r):
    """The bits of numbers, of numbers beside them, of what is no number, and any bits."""
    bits = fixed.to_double_bits(r.choice([
        0, 1, -1, 1_000_000, -32_768_000_000, 32_768_000_000, r.randrange(-70000, 70000) * 1_000_000,
        r.randrange(-10 ** 9, 10 ** 9), r.randrange(-10 ** 15, 10 ** 15)]))
    odd = r.randrange(24)
    if odd == 0:
        bits = r.choice([fixed.ERR_BITS, fixed.NA_BITS, fixed.ERR_BITS + 1, fixed.NA_BITS + 1, 0x7FF8 << 48,
                         0xFFF8 << 48, 1 << 63, 1, (1 << 63) + 1])
    elif odd == 1:
        # the largest number, what is nearest to it and beyond
        bits = fixed.to_double_bits(999_999_999_999_999) + r.choice([0, 1, 2, 3, 4, 5]) + r.choice([0, 1 << 63])
    elif odd == 2:
        small = (0x3E00 + r.randrange(0x200) << 48) + r.randrange(1 << 48)
        bits = r.choice([small, small, r.randrange(1 << 64)])
    elif odd < 5:
        bits = max(bits + r.randrange(-9, 10), 0)
    elif odd < 7:
        # halfway between two millionths
        return struct.pack('<d', (2 * r.randrange(-1000, 1000) + 1) / 128)
    return bits.to_bytes(8, 'little')


class Texts:
    """Formula texts over cells of a block, far cells and names."""

    def __init__(self, r, cols, rows, far, names, words=WORDS, without=()):
        self.r, self.cols, self.rows, self.far, self.names, self.words = r, cols, rows, far, names, words
        self.functions = [code for code, (name, _, _) in FUNCTIONS.items() if name not in without]

    def cell(self):
        """A cell, relative or absolute."""
        r = self.r
        if self.far and r.randrange(8) == 0:
            col, row = r.choice([0, 25, 26, 52, 254, 255]), r.choice([0, 1, 8190, 8191, r.randrange(8192)])
        else:
            col, row = r.randrange(self.cols), r.randrange(self.rows)
        sign = lambda: b'$' if r.randrange(4) == 0 else b''
        return sign() + col_text(col) + sign() + b'%d' % (row + 1)

    def span(self):
        """A span."""
        return self.cell() + self.r.choice([b'..', b'..', b'..', b'.']) + self.cell()

    def name(self):
        """A name."""
        return (b'$' if self.r.randrange(4) == 0 else b'') + self.r.choice(self.names)

    def leaf(self):
        """An operand."""
        r = self.r
        word = lambda: quoted(r, self.words)
        constant = lambda: r.choice([b'@NA', b'@ERR', b'@TRUE', b'@FALSE', b'@TRUE', b'@FALSE', b'@NOW'])
        name = self.name if self.names else self.cell
        return r.choice([lambda: decimal(r)] * 3 + [self.cell] * 5 + [word, name, constant])()

    def call(self, depth):
        """A function with its arguments."""
        r = self.r
        code = r.choice(self.functions)
        name, least, most = FUNCTIONS[code]
        if most == 0:
            return b'@' + name
        count = r.randrange(least, min(most, 4) + 1) if code in COUNTED else least
        args = [self.argument(name, i, depth - 1, code in COUNTED) for i in range(count)]
        return b'@' + name + b'(' + r.choice([b',', b',', b';']).join(args) + b')'

    def argument(self, name, place, depth, counted):
        """An argument, which is mostly of the kind that the function takes."""
        r = self.r
        if r.randrange(4) == 0:
            return self.tree(depth)
        if name in RANGED and (counted or place in RANGED[name]):
            return self.span()
        if name in WORDED and place in WORDED[name]:
            return r.choice([quoted(r, self.words), quoted(r, self.words), self.cell(), self.tree(depth)])
        return r.choice([b'%d' % r.randrange(1, 13), b'%d' % r.randrange(-5, 100), decimal(r), self.cell(), self.cell(),
                         self.tree(depth)])

    def tree(self, depth):
        """A formula of at most a depth."""
        r = self.r
        pick = r.randrange(10) if depth > 0 else 0
        if pick < 3:
            return self.leaf()
        if pick < 4:
            return r.choice([b'-', b'+', b'#NOT#']) + self.tree(depth - 1)
        if pick < 5:
            return b'(' + self.tree(depth - 1) + b')'
        if pick < 7:
            return self.tree(depth - 1) + r.choice(OPERATORS) + self.tree(depth - 1)
        return self.call(depth)


# the places of arguments that are spans
RANGED = {b'SUM': (0,), b'AVG': (0,), b'COUNT': (0,), b'MIN': (0,), b'MAX': (0,), b'VLOOKUP': (1,), b'HLOOKUP': (1,),
          b'INDEX': (0,), b'COLS': (0,), b'ROWS': (0,), b'CELL': (1,), b'DSUM': (0, 2), b'DAVG': (0, 2),
          b'DCOUNT': (0, 2),
          b'DMIN': (0, 2), b'DMAX': (0, 2)}


# the places of arguments that are texts
WORDED = {b'LENGTH': (0,), b'VALUE': (0,), b'MID': (0,), b'LEFT': (0,), b'RIGHT': (0,), b'CODE': (0,), b'FIND': (0, 1),
          b'REPEAT': (0,), b'REPLACE': (0, 3), b'UPPER': (0,), b'LOWER': (0,), b'PROPER': (0,), b'TRIM': (0,),
          b'CLEAN': (0,),
          b'EXACT': (0, 1), b'DATEVALUE': (0,), b'TIMEVALUE': (0,), b'@': (0,), b'CELL': (0,), b'CELLPOINTER': (0,)}


def mixed(r, text):
    """Letters in either case, and blanks between parts."""
    out = bytearray()
    for byte in text:
        letter = bytes([byte])
        if r.randrange(2):
            letter = letter.lower()
        if letter in b'(),;+-*/^&<>=' and r.randrange(4) == 0:
            letter = r.choice([b' ' + letter, letter + b' ', b'  ' + letter])
        out += letter
    return bytes(out)


def broken(r, text):
    """A byte lost, doubled, changed or put in."""
    for _ in range(r.choice([1, 1, 1, 2, 4])):
        at = r.randrange(len(text) + 1)
        byte = bytes([r.choice(TEXT_BYTES)])
        put = r.choice([b'', b'(', b')', b',', b'"', b'#', b'@', b'$', b'.', b'A1', b'+', b'7', byte])
        text = text[:at] + put + text[at + r.randrange(2):]
    return text


def is_read(text, at, names):
    """Whether a text spells a formula."""
    try:
        formula.read(text, at, names)
        return True
    except formula.ParseFault:
        return False


# ---------------------------------------------------------------- words


def any_case(r, word):
    """A word whose letters are in either case."""
    return bytes(b + 32 if 65 <= b <= 90 and r.randrange(2) else b for b in word)


# ---------------------------------------------------------------- sheets

# names of spans; two are no plain ones, so that no formula is printed with them
SPAN_NAMES = [b'TAX', b'NET_PAY', b'q2', b'Z9', b'TOTAL OF ALL', b'AREA']

FAR_CELLS = [b'IV1', b'IU2', b'A8192', b'B8191', b'C8189', b'IV8192']
FAR_SPANS = [b'IU1..IV2', b'IV8192', b'A8190..C8192', b'IT8191..IV8192', b'A4..A8192', b'C1..IV1', b'B2..IV3',
             b'A1..B8192']


def records_of_column(r):
    """A function of the records of a column, by conditions below the column's own header."""
    col = col_text(r.randrange(3))
    return (b'@' + r.choice([b'DSUM', b'DCOUNT', b'DMAX']) + b'(' + col + b'1..' + col + b'4,0,'
            + col + b'1..' + col + b'%d)' % r.choice([2, 3]))


class Sheets:
    """Lines of small sheets: edits around A1 to C4, which are made as they come, so that formulas are entered with
    names that are there."""

    def __init__(self, r):
        self.r = r
        self.desk = Desk()

    def cell(self):
        """A cell of the block."""
        return col_text(self.r.randrange(3)) + b'%d' % self.r.randrange(1, 5)

    def span(self):
        """A span of the block."""
        return self.cell() + b'..' + self.cell()

    def text(self, cell, cols=3, rows=4):
        """What is entered in a cell: it is read as a number, a label, a formula or nothing."""
        r = self.r
        texts = Texts(r, cols, rows, False, [])
        if cell[1:] == b'1' and r.randrange(3) == 0:
            return b"'" + r.choice(WORDS)  # a field's name
        while True:
            text = r.choice([
                lambda: b'%d' % r.randrange(100), lambda: b'%.2f' % r.uniform(-10, 10), lambda: b'',
                lambda: bytes([r.choice(b"'\"^\\|")]) + r.choice(WORDS),
                lambda: (b'+' + texts.cell() + r.choice([b'+', b'-', b'*', b'/', b'&'])
                         + r.choice([texts.cell(), b'0.5', b'2', b'3'])),
                lambda: b'+' + texts.cell() + r.choice([b'+1', b'', b'*2']),
                lambda: b'@' + r.choice([b'SUM', b'COUNT', b'MAX', b'MIN', b'AVG']) + b'(' + texts.span() + b')',
                lambda: b'@IF(' + texts.cell() + b'>' + texts.cell() + b',' + texts.cell() + b',4)',
                lambda: r.choice([b'@INT(@NOW)', b'@@("B4")', b'@CELL("width",' + texts.cell() + b')', b'@NA', b'1/0']),
                lambda: b'@CELL("contents",' + texts.span() + b')', lambda: records_of_column(r),
                lambda: r.choice([b'@SUM(', b'@COUNT(', b'@ROWS(']) + r.choice([b'', b'$']) + r.choice(SPAN_NAMES)
                + b')'])()
            is_plain = text[:1] in (b'', b"'", b'"', b'^', b'\\', b'|') or isinstance(fixed.read_decimal(text), int)
            if is_plain or is_read(text, read_cell(cell), self.desk.sheet.names):
                return text

    def line_span(self):
        """A span by whose rows or columns lines are inserted or deleted: mostly of few lines near A1."""
        r = self.r
        return r.choice([self.cell, self.cell, self.span, lambda: r.choice(FAR_CELLS + FAR_SPANS)])()

    def shift(self):
        """A move, or lines inserted or deleted: some far away, and some that leave the sheet or push cells out of
        it."""
        r = self.r
        from_span = self.span() if r.randrange(6) else r.choice(FAR_SPANS)
        to = self.cell() if r.randrange(6) else r.choice(FAR_CELLS)
        return r.choice([lambda: b'>' + from_span + b' ' + to, lambda: b'>' + from_span + b' ' + to,
                         lambda: r.choice([b'ir', b'ic', b'dr', b'dc']) + self.line_span(),
                         lambda: r.choice([b'ir', b'ic', b'dr', b'dc']) + self.line_span()])()

    def column(self):
        """A column's own width, or whether it is hidden."""
        return self.r.choice([b'w%s 12', b'w%s 3', b'w%s 0', b'h%s', b'v%s']) % self.cell()

    def write(self):
        """A write of a list."""
        cell = self.cell()
        code = self.r.choice([b'-', b'-', b'2', b'127', b'255', b'%d' % self.r.randrange(256)])
        return cell + b' ' + code + b' ' + self.text(cell)

    def edit(self):
        """An edit."""
        r = self.r
        def entry():
            """An entry."""
            cell = self.cell() if r.randrange(15) else r.choice(FAR_CELLS)
            return b'=' + cell + b' ' + self.text(cell)
        far = lambda: self.cell() if r.randrange(12) else r.choice([b'IV1', b'IU1..IV2', b'A8192', b'IV8192'])
        return r.choice([
            entry, entry, entry, entry, entry, lambda: b'!', lambda: b'e' + self.span(),
            lambda: b'c' + self.span() + b' ' + (self.span() if r.randrange(3) == 0 else far()),
            lambda: b'c' + self.cell() + b' ' + self.span(),
            lambda: b'f' + self.span() + b' %d' % r.choice([0, 2, 34, 66, 112, 113, 114, 117, 118, 127]),
            lambda: r.choice([b'p', b'u']) + self.span() if r.randrange(3) else b'uA1..E7',
            lambda: b's' + bytes(r.choice(b'AAMPQQNCR1123') for _ in range(r.choice([1, 1, 2]))),
            lambda: b'x' + b'\t'.join(self.write() for _ in range(r.randrange(1, 5))),
            lambda: b'x' + b'\t'.join(self.write() for _ in range(r.randrange(1, 5))),
            self.shift, self.shift, self.shift, self.shift, self.shift, self.column,
            lambda: b'+' + self.span() + b' ' + r.choice(SPAN_NAMES)])()

    def edits(self, count):
        """So many edits: a fresh sheet for each dozen, all of which is shown at its end."""
        out = []
        while count:
            many = min(count, self.r.randrange(5, 22))
            self.desk = Desk()
            out.append(b':')
            for _ in range(many):
                out.append(self.edit())
                self.desk.line(out[-1])
            out += [b'!', b'?']
            count -= many
        return out


# ---------------------------------------------------------------- data commands

class Blocks:
    """Small blocks with many equal values, and what is asked of them."""

    def __init__(self, r):
        self.r = r
        self.names = Names()

    def sheet(self):
        """A fresh sheet with up to five columns and seven rows, mostly near A1."""
        r = self.r
        self.left, self.top = r.choice([(0, 0), (0, 0), (0, 0), (22, 90), (251, 8184)])
        self.cols, self.rows = r.randrange(1, 6), r.randrange(1, 8)
        plain = r.choice([True, False])
        writes = []
        for row in range(self.rows):
            for col in range(self.cols):
                if r.randrange(6):
                    cell = (self.left + col, self.top + row)
                    code = r.choice([b'-', b'-', b'2', b'113', b'255', b'%d' % r.randrange(256)])
                    writes.append(cell_text(cell) + b' ' + code + b' ' + self.text(cell, plain))
        return [b':'] + ([b'x' + b'\t'.join(writes)] if writes else [])

    def text(self, cell, plain):
        """What is entered: one of few numbers, labels that differ in their letters' case, and all kinds of values."""
        r = self.r
        number = lambda: r.choice([b'0', b'1', b'2', b'3', b'-1', b'1.5', b'0.000001', b'-999999999.999999'])
        if plain and r.randrange(4):
            return number()
        label = lambda: bytes([r.choice(b"'\"^\\|")]) + r.choice([b'fig', b'Fig', b'FIG', b'fi', b'', b'b', b'B', b'1',
                                                                  b'\xe9'])
        near = lambda: cell_text(self.place())
        formula = lambda: r.choice([b'@NA', b'@ERR', b'1/0', b'+"fig"', b'+"Fig"', b'+' + near(), b'+$' + near()
                                    + b'*2',
                                    b'@SUM(' + span_text((self.place(), self.place())) + b')'])
        return r.choice([number, number, label, label, formula, lambda: b''])()

    def place(self):
        """A cell of the block."""
        r = self.r
        return self.left + r.randrange(self.cols), self.top + r.randrange(self.rows)

    def span(self):
        """Mostly all of the block, or a part."""
        r = self.r
        if r.randrange(2):
            return (self.left, self.top), (self.left + self.cols - 1, self.top + self.rows - 1)
        (a, b), (c, d) = self.place(), self.place()
        return (min(a, c), min(b, d)), (max(a, c), max(b, d))

    def fill(self):
        """A fill."""
        r = self.r
        first = r.choice([self.place(), self.place(), (254, 8190)])
        last = min(first[0] + r.randrange(3), 255), min(first[1] + r.randrange(6), 8191)
        number = lambda: r.choice([b'%d' % r.randrange(-4, 9), b'%.1f' % r.uniform(-3, 3), b'999999999.999997',
                                   b'-999999999.999998', b'0'])
        step = lambda: r.choice([b'1', b'1', b'2', b'-1', b'0.5', b'-0.1', b'0', b'-0', b'0.0000001', b'0.000001',
                                 b'600000000'])
        stop = lambda: r.choice([number(), b'8191', b'8191', b'-8191', b'999999999.999999', b'-999999999.999999'])
        return b'f' + b' '.join([span_text((first, last)), number(), step(), stop()])

    def sort(self):
        """A sort by one or two keys."""
        r = self.r
        span = self.span()
        key = lambda: r.choice([b'+', b'-']) + cell_text((r.randrange(span[0][0], span[1][0] + 1), r.randrange(8)))
        return b's' + b' '.join([span_text(span)] + [key() for _ in range(r.choice([1, 1, 2]))])

    def distribution(self):
        """A distribution."""
        r = self.r
        bins = self.span() if r.randrange(2) else (self.place(),) * 2
        if r.randrange(8) == 0:
            bins = r.choice([((255, 0), (255, 2)), ((254, 8190), (254, 8191)), ((254, 8189), (255, 8190)),
                             ((3, 0), (5, 2))])
        return b'd' + span_text(self.span()) + b' ' + span_text(bins)

    def asked(self, count):
        """So many of each, a fresh sheet for each few."""
        out = []
        for _ in range(count):
            out += self.sheet() + [self.fill(), self.sort(), self.distribution()]
        return out


class Queries:
    """Small lists of records with few values, criteria for them, and what is asked of them."""

    NAMES = [b'N', b'AMT', b'Day', b'who', b'x*']

    def __init__(self, r):
        self.r = r

    def sheet(self):
        """A fresh sheet with records and a criterion."""
        r = self.r
        self.names = r.sample(self.NAMES, 4)
        self.input = self.range(r.choice([(0, 0), (0, 0), (2, 3), (0, 8184)]), r.randrange(1, 5),
                                r.choice([1, 2, *range(3, 9)] * 2 + [7]))
        self.criterion = self.range(r.choice([(6, 0), (6, 0), (6, 3), (6, 8189)]), r.randrange(1, 4),
                                    r.choice([1, 2, 2, 2, 3, 3]))
        writes = [self.put(cell, self.header(i)) for i, cell in enumerate(self.row(self.input, 0))]
        for line in range(1, height_of(self.input)):
            writes += [self.put(cell, self.value()) for cell in self.row(self.input, line)]
        writes += [self.put(cell, self.header()) for cell in self.row(self.criterion, 0)]
        for line in range(1, height_of(self.criterion)):
            writes += [self.put(cell, self.condition()) for cell in self.row(self.criterion, line)]
        return [b':', b'x' + b'\t'.join(writes)]

    def range(self, first, cols, rows):
        """A range from its first cell, cut at the end of the sheet."""
        return first, (min(first[0] + cols - 1, 255), min(first[1] + rows - 1, 8191))

    def row(self, span, line):
        """The cells of a line of a span."""
        return [(col, span[0][1] + line) for col in range(span[0][0], span[1][0] + 1)]

    def put(self, cell, text):
        """A write of a list."""
        code = self.r.choice([b'-', b'-', b'2', b'113', b'%d' % self.r.randrange(256)])
        return cell_text(cell) + b' ' + code + b' ' + text

    def header(self, place=None):
        """A field's name, or seldom what is none."""
        r = self.r
        if r.randrange(60) == 0:
            return r.choice([b'', b'1', b'+"N"', b"'", b"'nobody"])
        if place is None or r.randrange(12) == 0:
            place = r.randrange(width_of(self.input))
        return b"'" + any_case(r, self.names[place])

    def value(self):
        """A field's value."""
        r = self.r
        return r.choice([lambda: b'%d' % r.randrange(4), lambda: b"'"
                         + r.choice([b'fig', b'Fig', b'fi', b'figs', b'', b'b']),
                         lambda: r.choice([b'', b'@NA', b'@ERR', b'+"fig"', b'1.5', b'+' + self.near()])])()

    def near(self):
        """A cell of the first record, or another one."""
        r = self.r
        first, last = self.input
        cell = r.randrange(first[0], last[0] + 1), min(first[1] + r.choice([1, 1, 1, 0, 2]), 8191)
        return r.choice([b'', b'', b'', b'$']) + col_text(cell[0]) + r.choice([b'', b'', b'',
                                                                               b'$']) + b'%d' % (cell[1] + 1)

    def condition(self):
        """A condition of a criterion."""
        r = self.r
        number = lambda: b'%d' % r.randrange(4)
        pattern = lambda: b"'" + r.choice([b'fig', b'f*', b'?i?', b'~fig', b'~f*', b'~', b'', b'*', b'fig?', b'~*',
                                           b'x*y', b'FI*z'])
        formula = lambda: r.choice([
            b'+' + self.near() + r.choice([b'>', b'<', b'=', b'<>']) + r.choice([number(), self.near(), b'"fig"']),
            b'@ISSTRING(' + self.near() + b')', b'@SUM(' + self.near() + b'..' + self.near() + b')>3', b'+"1"', b'1',
            b'@NA', b'+' + self.near(), b'@CELL("row",' + self.near() + b')>3'])
        return r.choice([lambda: b'', lambda: b'', number, pattern, pattern, formula, formula])()

    def asked(self, count):
        """So many of each, a fresh sheet for each few."""
        out = []
        for _ in range(count):
            out += self.sheet()
            given = span_text(self.input) + b' ' + span_text(self.criterion)
            out += [b'q' + given, b'r' + given]
        return out


class Extractions(Queries):
    """Records of which many have equal values, and outputs that have room for them or too little."""

    def sheet(self):
        """A fresh sheet with records, a criterion and an output."""
        r = self.r
        lines = super().sheet()
        first = r.choice([(10, 0), (10, 0), (10, 0), (10, 3), (10, 8180), (10, 8186), (10, 8190), (10, 8191), (254, 0),
                          self.input[0]])
        rows = r.choice([1 if first[1] >= 8180 else 5, 2, 3, 4, 5, 7, 8, 9])
        self.output = self.range(first, r.randrange(1, 5), rows)
        lines[1] += b''.join(b'\t' + self.put(cell, self.taken()) for cell in self.row(self.output, 0)
                             if first != self.input[0])
        return lines

    def header(self, place=None):
        """A field's name, and often that of an earlier field."""
        return super().header(place if place is None or self.r.randrange(4) else self.r.randrange(place + 1))

    def value(self):
        """One of few values; the same text as a label of each alignment, in other letters, and as a formula's value."""
        return self.r.choice([b'1', b'1', b'2', b"'fig", b"'fig", b'^fig', b"'Fig", b'+"fig"', b'', b"'", b'@NA',
                              b'@ERR', b'1.000001'])

    def condition(self):
        """Mostly one that all records or many of them meet."""
        r = self.r
        return r.choice([b'', b'', b"'~x", b"'~x", b"'*", b'@TRUE']) if r.randrange(4) else super().condition()

    def taken(self):
        """A header of an output: a field's name, nothing, what is no label, or seldom a label that is no field."""
        r = self.r
        return r.choice([b'', b'1',
                         b'+"N"']) if r.randrange(6) == 0 else b"'nobody" if r.randrange(40) == 0 else self.header()

    def asked(self, count):
        """So many of each, a fresh sheet for each two."""
        out = []
        for _ in range(count):
            out += self.sheet()
            given = b' '.join(map(span_text, (self.output, self.input, self.criterion)))
            out += [b'e' + given, b'u' + given]
        return out


class Macros:
    """Small sheets whose cells hold macros that write their own cells, those of others, and cells that text formulas
    read."""

    TARGETS = [b'A1', b'A2', b'B1', b'B2', b'C3', b'D1', b'D2', b'E1', b'F1', b'COUNT', b'SUB', b'CODE', b'A8192',
               b'd1', b'iv8192']
    NAMES = [(b'D2..D3', b'SUB'), (b'E1', b'CODE'), (b'A1', b'COUNT'), (b'D1', b'AGAIN'), (b'B1..C3', b'TABLE'),
             (b'F1', b'NET PAY')]
    BROKEN = [b'{', b'}', b'{SUB', b'/XI1', b'{NOWORD}', b'{NET PAY}', b'{GET A1}', b'{BEEP}', b'{?}', b'{MENUCALL A1}',
              b'/XMA1~', b'{PANELOFF}', b'{WAIT 1}', b'{LOOK A1}', b'{READ 3,A1}', b'{"}']

    def __init__(self, r):
        self.r = r
        self.texts = Texts(r, 6, 4, False, [b'COUNT', b'CODE', b'TABLE'], without={b'CELLPOINTER'})

    def target(self):
        """A place, seldom none."""
        r = self.r
        return r.choice([b'$A$1', b' A1', b'NOWHERE', b'A1..B2', b'', b'1',
                         b'A8193']) if r.randrange(25) == 0 else r.choice(self.TARGETS)

    def range(self):
        """A range, seldom none."""
        r = self.r
        return r.choice([b'TABLE', b'B1..C3', b'C3.B1', b'A1', b'D1..D3', b'SUB', b'A1..B2', b'E1..E2', b'A8191..A8192',
                         self.target()])

    def number(self):
        """A number by an expression, seldom none."""
        r = self.r
        if r.randrange(12) == 0:
            return r.choice([b'@ERR', b'@NA', b'"x"', b'', b'1,', b'A1..B2', b'1 2', b'@SUM(', b'CODE', b'E1'])
        return r.choice([b'%d' % r.randrange(5), b'%d' % r.randrange(-3, 10), b'A1', b'COUNT', b'A1+1', b'@SUM(A1,B1)',
                         b'B2', b'1.9', b'-0.5', b'@COUNT(A1..B2)', b'@IF(A1<3,1,0)', b'9999999'])

    def value(self):
        """What LET puts."""
        r = self.r
        text = r.choice([self.number(), b'A1+1', b'COUNT*2', b'"{LET A1,2}"', b'{LET A1', b'some text', b'"a,b"',
                         b'(A1,B1)', b'B1&"~"', b'', b'@REPEAT("x",A1)', b'"~"', b'7', self.texts.tree(1)])
        return text + r.choice([b'', b'', b'', b':value', b':STRING', b':String', b':VALUE:string', b':string:value',
                                b':strin'])

    def word(self):
        """A word, mostly whole."""
        r, sep = self.r, self.r.choice([b',', b',', b';'])
        pick = r.randrange(26)
        if pick < 4:
            return b'{LET ' + self.target() + sep + self.value() + b'}'
        if pick < 6:
            name = r.choice([b'DOWN', b'R', b'ESC', b'HOME', b'CALC'])
            return b'{' + name + r.choice([b'', b'', b' ' + self.number(), b' ' + self.number()]) + b'}'
        if pick < 8:
            return r.choice([b'~', b'x', b'1', b'/', b'/WC', b'{~}', b'{{}', b'{}}', b'"', b' '])
        if pick < 10:
            return r.choice([b'{SUB}', b'{AGAIN}', b'{CODE}', b'{SUB '
                             + sep.join([self.value() for _ in range(r.randrange(1, 4))]) + b'}',
                             b'{sub ' + self.number() + b'}', b'{TABLE}'])
        if pick < 12:
            return b'{FOR ' + sep.join([self.target(), self.number(), self.number(),
                                        r.choice([b'1', b'1', b'2', b'-1', b'0.5', self.number()]),
                                        r.choice([b'SUB', b'E1', b'D2', b'D3', self.target()])]) + b'}'
        if pick < 15:
            return b'{IF ' + r.choice([b'A1<3', b'A1=2', b'@TRUE', b'@FALSE', b'"a"', self.number(),
                                       self.texts.tree(1)]) + b'}'
        return self.other_word(sep)

    def other_word(self, sep):
        """Any other word."""
        r = self.r
        return r.choice([
            lambda: b'{BRANCH ' + self.target() + b'}', lambda: b'{DISPATCH ' + self.target() + b'}',
            lambda: b'{RETURN}', lambda: b'{FORBREAK}', lambda: b'{RESTART}', lambda: b'{QUIT}', lambda: b'/XR',
            lambda: b'/xq', lambda: b'/XI' + self.number() + b'~', lambda: b'/XG' + self.target() + b'~',
            lambda: b'/XC' + self.target() + b'~',
            lambda: b'{BLANK ' + self.range() + b'}', lambda: b'{BLANK ' + self.range() + b'}',
            lambda: b'{PUT ' + sep.join([self.range(), self.number(), self.number(), self.value()]) + b'}',
            lambda: b'{PUT TABLE' + sep + sep.join([
                r.choice([b'0', b'1', b'1.9', b'2']), r.choice([b'0', b'2', b'3', b'-0.5']), self.value()]) + b'}',
            lambda: b'{CONTENTS ' + sep.join([self.target(), self.target(), b'%d' % r.randrange(242),
                                              b'%d' % r.randrange(-1, 258)][:r.randrange(1, 6)]) + b'}',
            lambda: b'{CONTENTS ' + sep.join([
                self.target(), self.target(), b'%d' % r.randrange(1, 20),
                r.choice([b'117', b'118', b'2', b'114', b'255', b'113'])][:r.randrange(2, 5)]) + b'}',
            lambda: b'{DEFINE ' + sep.join([self.target() + r.choice([b'', b':value', b':string', b':VALUE', b':val'])
                                            for _ in range(r.choice([1, 1, 2, 2, 3]))]) + b'}',
            lambda: b'{ONERROR ' + sep.join([self.target(), self.target(), b'A1'][:r.choice([1, 2, 2, 3])]) + b'}',
            lambda: r.choice([b'{RECALC ', b'{RECALCCOL ']) + sep.join([
                self.range(), r.choice([b'A1>1', b'@TRUE', b'0', self.number()]),
                r.choice([b'1', b'50', b'51', b'0', b'2.9', self.number()])][:r.randrange(1, 4)]) + b'}',
            lambda: b'{' + r.choice([b'RETURN', b'QUIT', b'IF', b'LET', b'FOR', b'BLANK', b'PUT', b'DEFINE', b'BRANCH'])
            + r.choice([b'', b' ', b' ,', b' 1,2,3,4,5,6', b' A1']) + b'}',
            lambda: r.choice(self.BROKEN)])()

    def text(self):
        """A macro's text, sometimes by a formula."""
        r = self.r
        text = b''.join(any_case(r, self.word()) if r.randrange(4) == 0 else self.word()
                        for _ in range(r.choice([1, 2, 3, 4])))
        if r.randrange(8) == 0:
            return r.choice([b'+E1&"{SUB}"', b'+"{LET A1,"&B1&"}"', b'@IF(A1>2,"{QUIT}","{LET A1,A1+1}")', b'+B1',
                             b'@REPEAT("~",A1)'])
        return (r.choice([b"'", b"'", b"'", b'^', b'"', b'\\']) + text)[:240]

    def sheet(self):
        """The lines of a sheet with macros."""
        r = self.r
        out = [b':'] + [b'+' + span + b' ' + name for span, name in self.NAMES]
        cells = [(cell, self.text()) for cell in (b'D1', b'D2', b'D3', b'E1') if r.randrange(8)]
        cells += [(cell, r.choice([b'%d' % r.randrange(4), b'%.2f' % r.uniform(-5, 5), b"'D1", b"'SUB", b"'E2",
                                   b'^word', b'+A1+1', b'@ERR', b'+"x"&"D3"',
                                   b'@NA', b'', b'"right', b'\\-=', b'31929']))
                  for cell in (b'A1', b'A2', b'B1', b'B2', b'C3', b'F1')]
        cells += [(cell, self.text()) for cell in (b'D4', b'E2', b'F2', b'D8192') if r.randrange(2)]
        code = lambda: r.choice([b'-', b'-', b'-', b'127', b'130', b'242', b'245', b'246', b'2'])
        out.append(b'x' + b'\t'.join(cell + b' ' + code() + b' ' + text for cell, text in cells))
        if r.randrange(4) == 0:
            out.append(b'w' + r.choice([b'A1', b'B1', b'D1']) + b' %d' % r.choice([1, 3, 12, 40, 240]))
        if r.randrange(4) == 0:
            out.append(b'g' + r.choice([b'2', b'34', b'117', b'118', b'114', b'112']))
        out.append(b's' + r.choice([b'A', b'A', b'A', b'M', b'P']))
        return out

    def runs(self, count):
        """So many runs, two of each sheet."""
        out = []
        while count > 0:
            out += self.sheet()
            out += [b'rD1 40', b'r' + self.r.choice([b'D2', b'D3', b'E1', b'E1', b'D2', b'D4', b'E2', b'D8192'])
                    + b' 40']
            count -= 2
        return out
