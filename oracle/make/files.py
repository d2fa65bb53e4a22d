"""Worksheet files: those of sheets, those that nobody saved, and damaged forms of both."""

from ..model import fixed, formula, wk1
from ..model.address import cell_text, height_of, read_cell, read_span, width_of
from ..model.names import names_of
from ..model.sheet import DEFAULT_FORMAT, Saved, State
from ..model.values import BLANK, C_BLANK, ERR, NA, num, string
from .cases import TEXT_BYTES, Texts, WORDS, any_double, is_read, worked

PREFIXES = b'\'"^\\|'
ORDERS = {b'N': 'natural', b'C': 'columnwise', b'R': 'rowwise'}
COLUMNS = [*range(7), 26, 254, 255]
ROWS = [*range(8), 100, 8190, 8191]
FORMATS = [DEFAULT_FORMAT, DEFAULT_FORMAT, DEFAULT_FORMAT, 0, 2, 34, 66, 113, 114, 117, 118, 127, 130, 241]
HEAD, VALUE = 5, 8  # the bytes of a cell's head, and of a formula's value
EMPTY = bytes.fromhex('00000200060401000000')


# ---------------------------------------------------------------- files that lines tell

def saved_of(data):
    """The sheet that a file is read as, or none where it is refused."""
    try:
        return wk1.read(data)
    except wk1.Wk1Fault:
        return None


def bytes_of(word):
    """The bytes that a word spells."""
    return b'' if word == b'-' else bytes.fromhex(word.decode())


class Desk:
    """A sheet and a file, as lines build them.

    `:` begins a fresh sheet. `sA 50 ' 113 9 P N B7` sets the mode `A` or `M`, the passes, the label prefix, the format
    byte and the width, protection as `P` or `N`, the order `N`, `C` or `R`, and the pointer. `wB1 12` gives column B a
    width of its own, `hB1` hides it, and `mA1..B2 TAX` names a span. `cA1 255 TEXT` fills a cell in a format with what
    the text spells: a label where it begins with a prefix, nothing where it is empty, and else a number. `vA2 255
    n5000000 +A1*2` fills it with a formula and its value: `n` and millionths, `s` and a text's bytes, `e` for ERR or
    `a` for NA. Bytes are pairs of hexadecimal digits, and `-` stands for none.

    `f` asks for the sheet's file, which is at hand then, and `bBYTES` gives another one. `r` asks for the file at hand,
    `dAT COUNT BYTES` for the same where so many bytes at a place are replaced by others, and `zCOUNT` where so many
    bytes of 0 stand behind it. A line that begins with `#` says nothing."""

    def __init__(self):
        self.saved = Saved()
        self.file = b''

    def put(self, cell, state):
        """Puts a cell."""
        if state.content == C_BLANK and state.format == DEFAULT_FORMAT:
            self.saved.cells.pop(cell, None)
        else:
            self.saved.cells[cell] = state

    def cell(self, line):
        """A cell that a line tells."""
        cell, code, text = line.split(b' ', 2)
        cell = read_cell(cell)
        if not text:
            state = State(C_BLANK, BLANK, int(code))
        elif text[0] in PREFIXES:
            state = State(('label', text[0], text[1:]), string(text[1:]), int(code))
        else:
            number = fixed.read_decimal(text)
            state = State(('number', number), num(number), int(code))
        self.put(cell, state)

    def formula(self, line):
        """A formula with its value that a line tells."""
        cell, code, value, text = line.split(b' ', 3)
        cell = read_cell(cell)
        tree = formula.read(text, cell, self.saved.names)
        kind = value[:1]
        if kind == b'n':
            value = num(int(value[1:]))
        elif kind == b's':
            value = string(bytes_of(value[1:]))
        else:
            value = ERR if kind == b'e' else NA
        self.put(cell, State(('formula', tree), value, int(code)))

    def settings(self, line):
        """The settings that a line tells."""
        mode, passes, prefix, code, width, protection, order, pointer = line.split(b' ')
        settings = self.saved.settings
        settings.automatic, settings.passes, settings.prefix = mode == b'A', int(passes), prefix[0]
        settings.format, settings.width, settings.protection = int(code), int(width), protection == b'P'
        settings.order, settings.pointer = ORDERS[order], read_cell(pointer)

    def build(self, head, rest):
        """Does what a line says of the sheet and the file."""
        if head == b'b':
            self.file = bytes_of(rest)
        elif head == b'c':
            self.cell(rest)
        elif head == b'h':
            self.saved.hidden.add(read_cell(rest)[0])
        elif head == b'm':
            span, name = rest.split(b' ', 1)
            self.saved.names.create(name, read_span(span))
        elif head == b's':
            self.settings(rest)
        elif head == b'v':
            self.formula(rest)
        elif head == b'w':
            cell, width = rest.split(b' ')
            self.saved.widths[read_cell(cell)[0]] = int(width)
        elif head == b':':
            self.saved = Saved()
        elif head != b'#':
            raise ValueError(head + rest)

    def line(self, line):
        """The file that a line asks for, or none where it builds one."""
        head, rest = line[:1], line[1:]
        if head == b'f':
            self.file = wk1.write(self.saved)
            return self.file
        if head == b'r':
            return self.file
        if head == b'd':
            at, count, put = rest.split(b' ')
            return self.file[:int(at)] + bytes_of(put) + self.file[int(at) + int(count):]
        if head == b'z':
            return self.file + bytes(int(rest))
        self.build(head, rest)
        return None


def told_files(lines):
    """The files that lines ask for."""
    desk = Desk()
    return [data for data in map(desk.line, lines) if data is not None]


# ---------------------------------------------------------------- sheets that are built

def some_text(r, *sizes):
    """A text of one of some sizes."""
    return bytes(r.choice(TEXT_BYTES) for _ in range(r.choice(sizes)))


def hex_of(data):
    """Bytes in hexadecimal digits."""
    return data.hex().encode() or b'-'


class Built:
    """The lines that build a random sheet, whose cells stand in these columns and rows."""

    def __init__(self, r, columns=COLUMNS, rows=ROWS, without=()):
        self.r, self.columns, self.rows, self.without = r, columns, rows, without

    def place(self):
        """A cell's address."""
        return cell_text((self.r.choice(self.columns), self.r.choice(self.rows)))

    def text(self):
        """A text."""
        r = self.r
        if r.randrange(3) == 0:
            return r.choice(WORDS)
        return some_text(r, 240) if r.randrange(30) == 0 else some_text(r, 0, 1, 3, 8, 20, 60)

    def number(self):
        """Whole numbers round the ends of two bytes, decimals, and both signs."""
        r = self.r
        text = r.choice([
            lambda: b'%d' % r.choice([0, 1, -1, 32767, 32768, -32768, -32769, 999999999, -999999999]),
            lambda: b'%d' % r.randrange(-40000, 40000), lambda: b'%.2f' % r.uniform(-1000, 1000),
            lambda: b'%.6f' % r.uniform(-1, 1), lambda: b'%.*f' % (r.randrange(1, 7), r.uniform(-999999999, 999999999)),
            lambda: r.choice([b'0.000001', b'-0.000001', b'-0.0000001', b'999999999.999999', b'-999999999.999999'])])()
        return text if isinstance(fixed.read_decimal(text), int) else b'7'

    def value(self):
        """A value as a line tells it."""
        r = self.r
        number = lambda: b'n%d' % fixed.read_decimal(self.number())
        text = lambda: b's' + hex_of(self.text())
        return r.choice([number, number, number, text, lambda: b'e', lambda: b'a'])()

    def name(self):
        """A name of a span."""
        r = self.r
        known = r.choice([b'TOTAL', b'rates', b'Tax_Rate', b'A1', b'NET PAY', b'\\A', b'EXACTLY15LETTER'])
        return known if r.randrange(2) else some_text(r, *range(1, 16)).lstrip(b' ') or b'Q'

    def span(self):
        """A span."""
        return self.place() + (b'..' + self.place() if self.r.randrange(3) else b'')

    def cell(self, names):
        """A line of a cell."""
        r, place, code = self.r, self.place(), b'%d' % self.r.choice(FORMATS)
        texts = Texts(r, 7, 8, self.columns is COLUMNS, [name for name in names if name.isalnum()],
                      without=self.without)
        while r.randrange(2):
            text = texts.tree(r.choice([1, 2, 3, 4]))
            if len(text) <= 240 and is_read(text, read_cell(place), names_of_lines(names)):
                return b'v' + place + b' ' + code + b' ' + self.value() + b' ' + text
        label = lambda: bytes([r.choice(PREFIXES)]) + self.text()
        return b'c' + place + b' ' + code + b' ' + r.choice([self.number, self.number, label, label, lambda: b''])()

    def settings(self):
        """A line of settings."""
        r = self.r
        return b' '.join([b's' + r.choice([b'A', b'M']), b'%d' % r.choice([1, 2, 49, 50, r.randrange(1, 51)]),
                          r.choice([b"'", b'"', b'^']), b'%d' % r.choice(FORMATS),
                          b'%d' % r.choice([9, 1, 240, r.randrange(1, 241)]), r.choice([b'P', b'N']),
                          r.choice([b'N', b'C', b'R']), self.place()])

    def lines(self):
        """The lines of a sheet."""
        r = self.r
        names = {self.name(): self.span() for _ in range(r.choice([0, 0, 1, 2, 4]))}
        out = [b':'] + [self.settings()] * (r.randrange(3) > 0)
        width = lambda: b'%d' % r.choice([1, 9, 240, r.randrange(1, 241)])
        out += [b'w' + self.place() + b' ' + width() for _ in range(r.choice([0, 0, 1, 3]))]
        out += [b'h' + self.place() for _ in range(r.choice([0, 0, 1, 4]))]
        out += [b'm' + span + b' ' + name for name, span in names.items()]
        return out + [self.cell(names) for _ in range(r.choice([0, 1, 2, 3, 5, 8]))]


def names_of_lines(names):
    """Names as lines tell them."""
    return names_of([(name, span.decode()) for name, span in names.items()])


def file_of(lines):
    """The bytes of the sheet that lines build."""
    desk = Desk()
    for line in lines:
        desk.line(line)
    return wk1.write(desk.saved)


# ---------------------------------------------------------------- files that nobody saved

class Codes:
    """Random codes of formulas, also those that a save doesn't write, and now and then a faulty one."""

    def __init__(self, r):
        self.r = r

    def coordinate(self, size, bits):
        """A relative one, whose bits past the offset say nothing, or an absolute one."""
        r = self.r
        if r.randrange(3):
            offset = r.choice([0, 1, 2, size - 1, size - 2, r.randrange(size)])
            return 0x8000 | offset | (r.randrange(0x8000 >> bits) << bits if r.randrange(2) else 0)
        return r.choice([0, 1, size - 1, r.randrange(size)]) if r.randrange(60) else r.choice([size, size + 1, 0x7FFF])

    def ref(self):
        """A reference."""
        return wk1._u16s(self.coordinate(256, 8), self.coordinate(8192, 13))

    def text(self):
        """A text, seldom one that is none."""
        r = self.r
        text = some_text(r, 0, 1, 4, 12).replace(b'"', b"'")
        if r.randrange(30) == 0:
            text = r.choice([b'say "so"', b'a\x1fb', b'x' * 240, b'x' * 241])
        return b'\x06' + text + b'\0'

    def leaf(self):
        """An operand."""
        r = self.r
        double = lambda: b'\0' + any_double(r)
        whole = lambda: b'\x05' + r.choice([0, 1, 100, 32767, 32768, 65535, r.randrange(65536)]).to_bytes(2, 'little')
        bare = lambda: bytes([r.choice([code for code, (_, _, most) in formula.FUNCTIONS.items() if most == 0])])
        return r.choice([double, whole, whole, self.text, lambda: b'\x01' + self.ref(), lambda: b'\x01' + self.ref(),
                         lambda: b'\x02' + self.ref() + self.ref(), bare])()

    def call(self, depth):
        """A function behind its arguments, seldom one that is left out or has a wrong count."""
        r = self.r
        code = r.choice(list(formula.FUNCTIONS))
        if r.randrange(15) == 0:
            return b'\x05\x01\x00' * 4 + bytes([r.choice([*formula.LEFT_OUT, 0x19, 0x7A, 0xFF])])
        _, least, most = formula.FUNCTIONS[code]
        count = r.randrange(least, min(most, 4) + 1) if code in formula.COUNTED else least
        args = b''.join(self.tree(depth - 1) for _ in range(count))
        if r.randrange(40) == 0:
            count = r.choice([0, count + 1, 255])
        return args + bytes([code]) + (bytes([count]) if code in formula.COUNTED else b'')

    def tree(self, depth):
        """The code of a tree of at most a depth."""
        r = self.r
        pick = r.randrange(10) if depth > 0 else 0
        if pick < 3:
            return self.leaf()
        if pick < 5:
            return self.tree(depth - 1) + bytes(r.choice([0x04, 0x08, 0x16, 0x17]) for _ in range(r.choice([1, 1, 2])))
        if pick < 8:
            return self.tree(depth - 1) + self.tree(depth - 1) + bytes([r.choice(list(wk1.BINARY))])
        return self.call(depth)

    def whole(self):
        """A whole code, seldom one that is too deep, cut short or goes on."""
        r = self.r
        code = self.tree(r.choice([0, 1, 2, 3, 4]))
        odd = r.randrange(100)
        if odd < 3:
            count = r.choice([254, 255, 256])
            code = b'\x05\x01\x00' + r.choice([b'\x08', b'\x04', b'\x16', b'\x05\x01\x00\x09', b'\x21']) * count
        elif odd < 5:
            code = r.choice([code + code, code[:-1], code + b'\x09', b''])
        return code + (b'\x03' if odd != 5 else b'') + (b'\x03xyz' if odd == 6 else b'')


class Records:
    """Random records, of which most are as the format wants them."""

    def __init__(self, r):
        self.r = r
        self.codes = Codes(r)

    def place(self):
        """A place, seldom out of the sheet."""
        r = self.r
        if r.randrange(150) == 0:
            return r.choice([(256, 0), (0, 8192), (65535, 65535), (256, 8192), (32768, 1)])
        return r.choice(COLUMNS), r.choice(ROWS)

    def head(self):
        """A cell record's format and place."""
        return bytes([self.r.choice(FORMATS)]) + wk1._u16s(*self.place())

    def text(self):
        """The text of a record, seldom a faulty one."""
        r = self.r
        text = some_text(r, 0, 1, 3, 8, 20)
        if r.randrange(40) == 0:
            text = r.choice([r.choice([b'', b"'"]) + b'x' * r.choice([239, 240, 241]), b'a\x1fb', b'\x1f', b'\n'])
        return text + (b'\0' if r.randrange(60) else b'') + (b'\0more' if r.randrange(20) == 0 else b'')

    def name(self):
        """The body of a name's record."""
        r = self.r
        name = r.choice([b'TOTAL', b'rates', b'A1', b'x y', b'Q', b'q', b'fifteen_bytes_x', some_text(r, 1)])
        if r.randrange(25) == 0:
            name = r.choice([b'', b' q', b'a\x01', b'sixteen_bytes_xx', b'\xff\xfe'])
        first, last = (r.choice([0, 1, 5]), r.choice([0, 2, 8190])), (r.choice([5, 6, 255]), r.choice([8190, 8191]))
        if r.randrange(25) == 0:
            odd = [(last, first), ((0, 0), (256, 0)), ((0, 0), (0, 8192)), ((3, 0), (2, 5)), ((0, 4), (3, 3))]
            first, last = r.choice(odd)
        after = bytes(r.randrange(256) for _ in range(16)) if r.randrange(4) == 0 else bytes(16)
        return (name + b'\0' + after)[:16] + wk1._u16s(*first, *last)

    def window(self):
        """The body of a window's record."""
        r = self.r
        place = r.choice([self.place(), self.place(), (256, 3), (3, 8192), (65535, 0)])
        width = r.choice([9, 1, 240, r.randrange(1, 241), 0, 241, 256, 65535])
        tail = r.choice([bytes(23), b'', bytes(r.randrange(256) for _ in range(5))])
        return wk1._u16s(*place) + bytes([r.choice(FORMATS), r.randrange(256)]) + wk1._u16s(width) + tail

    def formula(self, head):
        """A formula's record."""
        code = self.codes.whole()
        return wk1._record(wk1.FORMULA, head + any_double(self.r) + wk1._u16s(len(code)) + code)

    def with_text(self):
        """A formula and a text behind it, mostly for its cell."""
        r = self.r
        head = self.head()
        between = r.choice([b'', b'', b'', wk1._record(wk1.PROTEC, b'\1'), wk1._record(wk1.STRING, head + b'first\0')])
        other = r.choice([head, head, head, self.head(), bytes([r.choice(FORMATS)]) + head[1:]])
        return self.formula(head) + between + wk1._record(wk1.STRING, other + self.text())

    def body(self, kind):
        """The body of a record of a kind."""
        r = self.r
        any_bytes = lambda *sizes: bytes(r.randrange(256) for _ in range(r.choice(sizes)))
        choice = lambda: bytes([r.choice([0, 1, 2, 50, 51, 254, 255, r.randrange(256)])])
        own_width = lambda: wk1._u16s(r.choice([*COLUMNS, 256, 65535])) + bytes([r.choice([0, 1, 9, 240, 241, 255])])
        return {
            wk1.BOF: lambda: r.choice([b'\x06\x04', b'\x07\x04', b'ab']),
            wk1.CALCMODE: choice, wk1.CALCORDER: choice, wk1.PROTEC: choice, wk1.CALCCOUNT: choice,
            wk1.LABELFMT: lambda: bytes([r.choice(b'\'"^\\|x ')]),
            wk1.RANGE: lambda: bytes(8),
            wk1.WINDOW1: self.window,
            wk1.COLW1: own_width,
            wk1.HIDVEC1: lambda: r.choice([bytes(32), bytes(31) + b'\x80', any_bytes(32)]),
            wk1.NAME: self.name,
            wk1.BLANK_R: self.head,
            wk1.INTEGER: lambda: self.head() + any_bytes(2),
            wk1.NUMBER: lambda: self.head() + any_double(r),
            wk1.LABEL: lambda: self.head() + r.choice([b"'", b'"', b'^', b'\\', b'|', b'']) + self.text(),
            wk1.STRING: lambda: self.head() + self.text(),
        }.get(kind, lambda: any_bytes(*range(6)))()

    def record(self):
        """A record, seldom one that is too short or too long."""
        r = self.r
        passed_over = r.choice([0x04, 0x18, 0x60, 0x100, 0xFFFF])
        kinds = [kind for kind in wk1.LEAST if kind != wk1.EOF]
        kind = r.choice([*kinds, *wk1.HEADED, wk1.FORMULA, wk1.FORMULA, wk1.FORMULA, passed_over])
        if kind == wk1.FORMULA:
            return self.with_text() if r.randrange(2) else self.formula(self.head())
        body = self.body(kind)
        odd = r.randrange(80)
        if odd == 0:
            body = body[:r.randrange(len(body) + 1)]
        elif odd < 4:
            body += bytes(r.randrange(256) for _ in range(r.randrange(4)))
        return wk1._record(kind, body)

    def file(self):
        """A file."""
        r = self.r
        version = r.choice([b'\x06\x04'] * 8 + [b'\x05\x04', b'\x04\x04', b'\x06\x04more', b'\x04\x04\0'])
        if r.randrange(60) == 0:
            version = r.choice([b'\x03\x04', b'\x07\x04', b'\x06\x05', b'\x06', b''])
        out = wk1._record(wk1.BOF, version) + b''.join(self.record() for _ in range(r.randrange(8)))
        return out + wk1._record(wk1.EOF) + r.choice([b'', b'', b'', b'\x1a', b'\x01\0\0\0'])


# ---------------------------------------------------------------- damage

def places_of(data):
    """The places at which records begin, and the end of the last."""
    places = [0]
    while places[-1] + 4 <= len(data) and places[-1] + 4 + wk1.u16(data, places[-1] + 2) <= len(data):
        places.append(places[-1] + 4 + wk1.u16(data, places[-1] + 2))
    return places


def changed_byte(r, data):
    """A byte is changed."""
    at = r.randrange(len(data))
    byte = data[at]
    byte = r.choice([r.randrange(256), byte ^ 1 << r.randrange(8), (byte + 1) % 256, (byte - 1) % 256, 0, 255])
    return at, 1, bytes([byte])


def cut_short(r, data):
    """The file ends early."""
    at = r.randrange(len(data))
    return at, len(data) - at, b''


def cut_out(r, data):
    """Bytes are left out."""
    at = r.randrange(len(data))
    return at, min(r.choice([1, 1, 2, 4, 9]), len(data) - at), b''


def doubled(r, data):
    """Bytes stand twice."""
    at = r.randrange(len(data))
    return at, 0, data[at:at + r.choice([1, 1, 2, 4, 9])]


def of_records(r, data):
    """A record dropped or doubled, or two that change their places."""
    places = places_of(data)
    if len(places) < 3:
        return changed_byte(r, data)
    at = r.randrange(len(places) - 2)
    first, second, third = places[at:at + 3]
    return r.choice([(first, second - first, b''), (first, 0, data[first:second]),
                     (first, third - first, data[second:third] + data[first:second])])


def of_a_body(r, data):
    """A record that has lost or doubled some bytes of its body, and whose length tells so."""
    places = places_of(data)
    found = [(first, last) for first, last in zip(places, places[1:]) if last - first > 4]
    if not found:
        return changed_byte(r, data)
    first, last = r.choice(found)
    body = data[first + 4:last]
    at, count, put = r.choice([cut_short, cut_out, doubled])(r, body)
    body = body[:at] + put + body[at + count:]
    return first + 2, last - first - 2, wk1._u16s(len(body)) + body


def in_a_formula(r, data):
    """A byte changed in a formula's code, its size or its value."""
    places = places_of(data)
    found = [(a, b) for a, b in zip(places, places[1:]) if wk1.u16(data, a) == wk1.FORMULA and b - a > 4 + HEAD]
    if not found:
        return changed_byte(r, data)
    first, last = r.choice(found)
    at = r.randrange(first + 4 + HEAD, last)
    return at, 1, changed_byte(r, data[at:at + 1])[2]


KINDS = [changed_byte, changed_byte, changed_byte, cut_short, cut_out, doubled, of_records, of_records, of_a_body,
         of_a_body, in_a_formula, in_a_formula]


def damaged(r, data):
    """A damaged form of a file."""
    at, count, put = r.choice(KINDS)(r, data)
    return data[:at] + put + data[at + count:]


# ---------------------------------------------------------------- files that runs begin with

FEW_COLUMNS, FEW_ROWS = [0, 1, 2, 3], [0, 1, 2, 3, 4, 5, 7]
MOST_CELLS = 2000  # of a span, which the oracle walks cell by cell


def is_still(data):
    """Whether no formula of the file asks for the moment."""
    saved = saved_of(data)
    return saved is None or not any(b'@NOW' in formula.print_(state.content[1], cell, saved.names)
                                    for cell, state in saved.cells.items() if state.content[0] == 'formula')


def is_quick(data):
    """Whether no span of the file is long."""
    saved = saved_of(data)
    return saved is None or all(width_of(span) * height_of(span) <= MOST_CELLS
                                for cell, state in saved.cells.items() if state.content[0] == 'formula'
                                for span in formula.reads(state.content[1], cell))


def file_for_runs(r):
    """A file that is saved of a sheet, mostly of a small one, or that nobody saved, or one that is damaged."""
    while True:
        small = Built(r, FEW_COLUMNS, FEW_ROWS, {b'NOW'})
        kind = r.choice(['records', 'far', 'damaged', 'damaged', 'small', 'small', 'small', 'small'])
        data = Records(r).file() if kind == 'records' else file_of((Built(r) if kind == 'far' else small).lines())
        if kind == 'damaged':
            data = damaged(r, data)
        if is_still(data) and is_quick(data):
            return data


def at_the_most():
    """A formula of the most bytes, and the same without a bracket and with a text of a byte more: the bracket that is
    put has no room. Then a file of the most bytes and one of a byte more, and one that is nothing but too large."""
    text = lambda size: b'\x06' + b'x' * size + b'\0'
    sum_of = lambda count: bytes([0x50, count])
    bracketed, bare = b'\x04\x05\x03\0\x0b\x06', b'\x05\x03\0\x0b\x06x'
    code = (b'\x05\x01\0\x05\x02\0\x09' + bracketed[:-1] + text(161) + text(240) * 16 + sum_of(18) + text(240) * 254
            + sum_of(255) + b'\x03')
    assert len(code) == 65520
    body = b'\xff' + bytes(4) + bytes(VALUE) + wk1._u16s(len(code)) + code
    long = EMPTY[:-4] + wk1._record(wk1.FORMULA, body) + EMPTY[-4:]
    at = long.index(bracketed)
    return [b'b' + long.hex().encode(), b'r', b'd%d %d ' % (at, len(bare)) + bare.hex().encode(),
            b'b' + EMPTY.hex().encode(), b'z%d' % (wk1.MOST - len(EMPTY)), b'z%d' % (wk1.MOST - len(EMPTY) + 1), b'b-',
            b'z%d' % (wk1.MOST + 1)]


def of_many_cells():
    """A sheet of ten columns and sixty rows: whole numbers, numbers, labels and formulas by turns."""
    out = [b':']
    for number in range(600):
        place = cell_text((number % 10, number // 10))
        out.append([b'c%s 255 %d' % (place, number * 50), b'c%s 255 %.6f' % (place, 65536 + number / 64),
                    b"c%s 255 'order %07d is due" % (place, number),
                    b'v%s 255 n%d000000 +$A$1+%d' % (place, number, number)][number % 4])
    return out + [b'f']


SHEETS, DAMAGES = 500, 3  # and as many files besides; damaged forms of each file


def still(make):
    """A file as this makes it that doesn't ask for the moment."""
    while True:
        data = make()
        if is_still(data):
            return data


def all_files(r, count):
    """The worked ones; then those of so many sheets, as many that nobody saved, and damaged forms of each."""
    built, records = Built(r), Records(r)
    yield from told_files(worked('files').splitlines() + at_the_most() + of_many_cells())
    for make in [lambda: file_of(built.lines()), records.file] * count:
        data = still(make)
        yield data
        for _ in range(DAMAGES):
            yield still(lambda: damaged(r, data))
