"""WK1 files, as Lotus' worksheet file format has them."""

from . import fixed, formula, names as names_, text
from .address import COLS, ROWS, ordered, resolve, row_order
from .sheet import DEFAULT_FORMAT, Saved, State
from .values import BLANK, C_BLANK, ERR, ERR_EXPR, NA, NA_EXPR, num, string

MOST = 67_108_864

BOF, EOF, CALCMODE, CALCORDER, RANGE, WINDOW1, COLW1 = 0x00, 0x01, 0x02, 0x03, 0x06, 0x07, 0x08
NAME, BLANK_R, INTEGER, NUMBER, LABEL, FORMULA = 0x0B, 0x0C, 0x0D, 0x0E, 0x0F, 0x10
PROTEC, LABELFMT, CALCCOUNT, STRING, HIDVEC1 = 0x24, 0x29, 0x2F, 0x33, 0x64

# the least body of each type (F3): "shorter than the stated length"
LEAST = {BOF: 2, EOF: 0, CALCMODE: 1, CALCORDER: 1, RANGE: 8, WINDOW1: 8, COLW1: 3, NAME: 24,
         BLANK_R: 5, INTEGER: 7, NUMBER: 13, LABEL: 5, FORMULA: 15, PROTEC: 1, LABELFMT: 1,
         CALCCOUNT: 1, STRING: 5, HIDVEC1: 32}
HEADED = (BLANK_R, INTEGER, NUMBER, LABEL, FORMULA, STRING)

PREFIXES = b"'\"^\\|"


class Wk1Fault(Exception):
    """F1..F12 with the numbers that it carries."""

    def __init__(self, number, *numbers):
        super().__init__(number, *numbers)
        self.number = number
        self.numbers = numbers

    def text(self):
        """As the program's note tells it: function codes in two hexadecimal digits."""
        out = 'F%d' % self.number
        for i, n in enumerate(self.numbers):
            out += ' %02X' % n if self.number == 8 and i == 1 else ' %d' % n
        return out


class CodeFault(Exception):
    """kind 'Bad' (F7, the offset), 'Outside' (F8, the code), 'TooLarge' (F6), 'TooDeep' (F12)."""

    def __init__(self, kind, payload=None):
        super().__init__(kind, payload)
        self.kind = kind
        self.payload = payload


def u16(data, at):
    """Two bytes as a number from 0."""
    return data[at] | data[at + 1] << 8


def i16(data, at):
    """Two bytes as a number with a sign."""
    v = u16(data, at)
    return v - 65536 if v >= 32768 else v


# ---- codes ----

BINARY = {0x09: '+', 0x0A: '-', 0x0B: '*', 0x0C: '/', 0x0D: '^', 0x0E: '=', 0x0F: '<>', 0x10: '<=',
          0x11: '>=', 0x12: '<', 0x13: '>', 0x14: 'AND', 0x15: 'OR', 0x18: '&'}
BINARY_CODE = {op: code for code, op in BINARY.items()}


class _Node:
    """A tree on the stack with its depth, bytes of code and the least level on its right edge."""

    def __init__(self, expr, parts=(), edge=formula.NO_LEVEL):
        self.expr = expr
        self.depth = 1 + max((p.depth for p in parts), default=0)
        self.size = formula.own_code_size(expr) + sum(p.size for p in parts)
        self.edge = edge


def _axis(v, size, mask):
    """Bit 15 set: relative, the low 8 or 13 bits; without it the whole is the absolute number, which
    must be in the sheet (else None)."""
    if v & 0x8000:
        return ('off', v & mask)
    return ('abs', v) if v < size else None


def _ref(code, at):
    """The reference at a place, or None."""
    col = _axis(u16(code, at), COLS, 0xFF)
    row = _axis(u16(code, at + 2), ROWS, 0x1FFF)
    return None if col is None or row is None else (col, row)


def _bracket(node):
    """A tree in brackets."""
    return _Node(('group', node.expr), [node])


def _number(v):
    """A negative number becomes minus in front of its size."""
    if v < 0:
        inner = _Node(('num', -v))
        return _Node(('neg', inner.expr), [inner], formula.NEG_LEVEL)
    return _Node(('num', v))


class _Codes:
    """Reads a code into the tree of its formula, by a stack; `at` is where the present one begins. Each reader answers
    how many bytes it took."""

    def __init__(self, code):
        self.code, self.at, self.stack = bytes(code), 0, []

    def bad(self):
        """The fault of the present code."""
        return CodeFault('Bad', self.at)

    def need(self, size):
        """So many bytes, or it is cut short."""
        if self.at + size > len(self.code):
            raise self.bad()
        return size

    def take(self, count):
        """So many operands from the stack."""
        if len(self.stack) < count:
            raise self.bad()
        at = len(self.stack) - count
        parts = self.stack[at:]
        del self.stack[at:]
        return parts

    def reference(self, at):
        """The reference so far behind the present code."""
        ref = _ref(self.code, self.at + at)
        if ref is None:
            raise self.bad()
        return ref

    def double(self):
        """A number of eight bytes."""
        size = self.need(9)
        got = fixed.from_double_bits(int.from_bytes(self.code[self.at + 1:self.at + 9], 'little'))
        if got == fixed.TOO_LARGE:
            raise CodeFault('TooLarge')
        self.stack.append(_Node(ERR_EXPR) if got == 'ERR' else _Node(NA_EXPR) if got == 'NA' else _number(got))
        return size

    def cell(self):
        """A cell."""
        size = self.need(5)
        self.stack.append(_Node(('cell', self.reference(1))))
        return size

    def span(self):
        """A span."""
        size = self.need(9)
        self.stack.append(_Node(('span', self.reference(1), self.reference(5))))
        return size

    def group(self):
        """Brackets."""
        self.stack.append(_bracket(*self.take(1)))
        return 1

    def integer(self):
        """A whole number of two bytes."""
        size = self.need(3)
        self.stack.append(_number(i16(self.code, self.at + 1) * fixed.ONE))
        return size

    def string(self):
        """A text up to its zero."""
        end = self.code.find(b'\0', self.at + 1)
        data = self.code[self.at + 1:end]
        if end < 0 or not text.is_text(data) or b'"' in data:
            raise self.bad()
        self.stack.append(_Node(('str', data)))
        return end + 1 - self.at

    def plus(self):
        """Plus in front is dropped."""
        self.stack.extend(self.take(1))
        return 1

    def front(self):
        """Minus in front, or NOT."""
        kind, level = ('neg', formula.NEG_LEVEL) if self.code[self.at] == 0x08 else ('not', formula.NOT_LEVEL)
        (inner,) = self.take(1)
        if not formula.front_ok(level, inner.expr):
            inner = _bracket(inner)
        self.stack.append(_Node((kind, inner.expr), [inner], min(level, inner.edge)))
        return 1

    def binary(self):
        """An operator, with one bracket round each direct operand that would break well-bracketing there."""
        left, right = self.take(2)
        name = BINARY[self.code[self.at]]
        level = formula.LEVEL[name]
        if left.edge < level:
            left = _bracket(left)
        if not formula.right_ok(name, right.expr):
            right = _bracket(right)
        self.stack.append(_Node(('bin', name, left.expr, right.expr), [left, right], min(level, right.edge)))
        return 1

    def function(self):
        """A function of its arguments, which a byte counts where there may be more or fewer."""
        op, size = self.code[self.at], 1
        _, least, most = formula.FUNCTIONS[op]
        count = least
        if op in formula.COUNTED:
            size = self.need(2)
            count = self.code[self.at + 1]
            if not least <= count <= most:
                raise self.bad()
        args = self.take(count)
        self.stack.append(_Node(('call', op, [arg.expr for arg in args]), args))
        return size

    def unknown(self):
        """A function that is left out, or nothing that is known."""
        if self.code[self.at] in formula.LEFT_OUT:
            raise CodeFault('Outside', self.code[self.at])
        raise self.bad()

    def end(self):
        """The tree at the end."""
        if len(self.stack) != 1 or self.stack[0].size + 1 > 65520:
            raise self.bad()
        if self.stack[0].depth > 256:
            raise CodeFault('TooDeep')
        return self.stack[0].expr


READERS = {0x00: _Codes.double, 0x01: _Codes.cell, 0x02: _Codes.span, 0x04: _Codes.group, 0x05: _Codes.integer,
           0x06: _Codes.string,
           0x08: _Codes.front, 0x16: _Codes.front, 0x17: _Codes.plus, **dict.fromkeys(BINARY, _Codes.binary),
           **dict.fromkeys(formula.FUNCTIONS, _Codes.function)}
END_OF_CODE = 0x03


def read_code(code):
    """The tree of a code, or CodeFault: the fault at the least offset; TooDeep only where there is no
    other."""
    codes = _Codes(code)
    while codes.at < len(codes.code):
        op = codes.code[codes.at]
        if op == END_OF_CODE:
            return codes.end()
        codes.at += READERS.get(op, _Codes.unknown)(codes)
    raise codes.bad()                        # no 03 comes: the code's size


def _written_ref(ref, at):
    """A relative coordinate is hex 8000 plus the low 14 bits of target less own place."""
    target = resolve(ref, at)
    out = b''
    for axis, place, own in zip(ref, target, at):
        v = place if axis[0] == 'abs' else 0x8000 + ((place - own) & 0x3FFF)
        out += v.to_bytes(2, 'little')
    return out


def _write_tree(expr, at):
    """The code of a tree without its end."""
    kind = expr[0]
    if kind == 'num':
        if formula.is_short(expr[1]):
            return b'\x05' + (expr[1] // fixed.ONE).to_bytes(2, 'little')
        return b'\x00' + fixed.to_double_bits(expr[1]).to_bytes(8, 'little')
    if kind == 'str':
        return b'\x06' + expr[1] + b'\0'
    if kind == 'cell':
        return b'\x01' + _written_ref(expr[1], at)
    if kind == 'span':
        return b'\x02' + _written_ref(expr[1], at) + _written_ref(expr[2], at)
    if kind == 'bin':
        return _write_tree(expr[2], at) + _write_tree(expr[3], at) + bytes([BINARY_CODE[expr[1]]])
    if kind in ('group', 'neg', 'not'):
        return _write_tree(expr[1], at) + {'group': b'\x04', 'neg': b'\x08', 'not': b'\x16'}[kind]
    out = b''.join(_write_tree(a, at) for a in expr[2]) + bytes([expr[1]])
    if expr[1] in formula.COUNTED:
        out += bytes([len(expr[2])])
    return out


def write_code(expr, at):
    """The code of a formula."""
    out = _write_tree(expr, at) + b'\x03'
    assert len(out) == formula.code_size(expr)
    return out


# ---- files ----

def _records(data):
    """Yields (number, type, body); raises F1, F2.  Bytes after EOF aren't read."""
    at = 0
    number = 0
    while True:
        if number == 0:
            # F1 comes before all others in the first record
            first = data[:4]
            if (len(first) < 4 or u16(first, 0) != BOF or u16(first, 2) < 2
                    or data[4:6] not in (b'\x06\x04', b'\x05\x04', b'\x04\x04')):
                raise Wk1Fault(1)
        if at + 4 > len(data) or at + 4 + u16(data, at + 2) > len(data):
            raise Wk1Fault(2, at)  # the first record that isn't whole, or the length where no EOF came
        kind, length = u16(data, at), u16(data, at + 2)
        yield number, kind, data[at + 4:at + 4 + length]
        if kind == EOF:
            return
        at += 4 + length
        number += 1


def _double(body):
    """The number of eight bytes."""
    return fixed.from_double_bits(int.from_bytes(body, 'little'))


class _File:
    """Reads the records of a file into a saved sheet. `body` is that of the present record; a cell's record begins with
    its format and its place."""

    def __init__(self):
        self.saved = Saved()
        self.settings = self.saved.settings
        self.number, self.body, self.format, self.cell = 0, b'', None, None
        # number and cell of the latest FORMULA
        self.last_formula = None

    def fault(self, number, *more):
        """A fault of the present record."""
        return Wk1Fault(number, self.number, *more)

    def take(self, number, kind, body):
        """A record; those of other types are passed over."""
        if kind not in LEAST:
            return
        self.number, self.body = number, body
        if len(body) < LEAST[kind] or kind == FORMULA and len(body) < 15 + u16(body, 13):
            raise self.fault(3)
        if kind in HEADED:
            self.format, self.cell = body[0], (u16(body, 1), u16(body, 3))
            if self.cell[0] >= COLS or self.cell[1] >= ROWS:
                raise self.fault(4)
        if kind in TAKERS:
            TAKERS[kind](self)

    def put(self, content, value):
        """A later cell record for a cell replaces the earlier one; a blank cell of format FF isn't kept."""
        if content == C_BLANK and self.format == DEFAULT_FORMAT:
            self.saved.cells.pop(self.cell, None)
        else:
            self.saved.cells[self.cell] = State(content, value, self.format)

    def text(self):
        """The text of a cell's record: F5 where there is no 00, more than 240 bytes of text, or a byte below 32."""
        end = self.body.find(b'\0', 5)
        if end < 0:
            raise self.fault(5)
        return self.body[5:end]

    def mode(self):
        """CALCMODE."""
        self.settings.automatic = self.body[0] != 0

    def order(self):
        """CALCORDER."""
        self.settings.order = {0x01: 'columnwise', 0xFF: 'rowwise'}.get(self.body[0], 'natural')

    def window(self):
        """WINDOW1: pointer, format and width."""
        pointer, width = (u16(self.body, 0), u16(self.body, 2)), u16(self.body, 6)
        self.settings.pointer = pointer if pointer[0] < COLS and pointer[1] < ROWS else (0, 0)
        self.settings.format = self.body[4]
        self.settings.width = width if 1 <= width <= 240 else 9

    def width(self):
        """COLW1."""
        col, width = u16(self.body, 0), self.body[2]
        if col < COLS and 1 <= width <= 240:
            self.saved.widths[col] = width

    def hidden(self):
        """HIDVEC1: a later one replaces an earlier one."""
        self.saved.hidden = {col for col in range(COLS) if self.body[col // 8] >> (col % 8) & 1}

    def name(self):
        """NAME."""
        end = self.body.find(b'\0', 0, 16)
        if end < 0:
            raise self.fault(9)
        try:
            names_.check(self.body[:end])
        except names_.NameFault:
            raise self.fault(9)
        first, last = (u16(self.body, 16), u16(self.body, 18)), (u16(self.body, 20), u16(self.body, 22))
        if max(first[0], last[0]) >= COLS or max(first[1], last[1]) >= ROWS or ordered(first, last) != (first, last):
            raise self.fault(10)
        self.saved.names.create(self.body[:end], (first, last))

    def protection(self):
        """PROTEC."""
        self.settings.protection = self.body[0] != 0

    def prefix(self):
        """LABELFMT."""
        self.settings.prefix = self.body[0] if self.body[0] in b"'\"^" else 0x27

    def passes(self):
        """CALCCOUNT."""
        self.settings.passes = min(max(self.body[0], 1), 50)

    def blank(self):
        """BLANK."""
        self.put(C_BLANK, BLANK)

    def integer(self):
        """INTEGER."""
        v = i16(self.body, 5) * fixed.ONE
        self.put(('number', v), num(v))

    def real(self):
        """NUMBER."""
        v = _double(self.body[5:13])
        if v == fixed.TOO_LARGE:
            raise self.fault(6)
        if v in ('ERR', 'NA'):
            self.put(('formula', ERR_EXPR if v == 'ERR' else NA_EXPR), ERR if v == 'ERR' else NA)
        else:
            self.put(('number', v), num(v))

    def label(self):
        """LABEL: without a prefix it has the apostrophe's."""
        held, prefix = self.text(), 0x27
        if held and held[0] in PREFIXES:
            prefix, held = held[0], held[1:]
        if not text.is_text(held):
            raise self.fault(5)
        self.put(('label', prefix, held), string(held))

    def formula(self):
        """FORMULA, with the fault of its code."""
        v = _double(self.body[5:13])
        value = ERR if v in ('ERR', fixed.TOO_LARGE) else NA if v == 'NA' else num(v)
        try:
            expr = read_code(self.body[15:15 + u16(self.body, 13)])
        except CodeFault as fault:
            number = {'Bad': 7, 'Outside': 8, 'TooLarge': 6, 'TooDeep': 12}[fault.kind]
            raise self.fault(number, *([fault.payload] if number in (7, 8) else []))
        self.put(('formula', expr), value)
        self.last_formula = (self.number, self.cell)

    def string(self):
        """STRING: the value of the formula before."""
        held = self.text()
        if not text.is_text(held):
            raise self.fault(5)
        if self.last_formula == (self.number - 1, self.cell):
            self.saved.cells[self.cell].value = string(held)


TAKERS = {CALCMODE: _File.mode, CALCORDER: _File.order, WINDOW1: _File.window, COLW1: _File.width,
          HIDVEC1: _File.hidden, NAME: _File.name,
          PROTEC: _File.protection, LABELFMT: _File.prefix, CALCCOUNT: _File.passes, BLANK_R: _File.blank,
          INTEGER: _File.integer,
          NUMBER: _File.real, LABEL: _File.label, FORMULA: _File.formula, STRING: _File.string}


def read(data):
    """The sheet that a file saved, or Wk1Fault."""
    data = bytes(data)
    if len(data) > MOST:
        raise Wk1Fault(11)
    file = _File()
    for number, kind, body in _records(data):
        file.take(number, kind, body)
    return file.saved


def _record(kind, body=b''):
    """A record."""
    return kind.to_bytes(2, 'little') + len(body).to_bytes(2, 'little') + body


def _u16s(*numbers):
    """Numbers of two bytes each."""
    return b''.join(n.to_bytes(2, 'little') for n in numbers)


# the bits of a formula's value where it is a text, which a STRING tells: what 1-2-3 saves, and readers take for a text
# to come
TEXT_BITS = 0x7FF0FFFFFFFFFFFF


def _range_end(saved):
    """The last used column and row; no column before the last one that has a width of its own or is hidden."""
    col, row = saved.last_used() or (0, 0)
    return max([col, *saved.widths, *saved.hidden]), row


def _value_bits(value):
    """The bits of a formula's value."""
    if value[0] == 'str':
        return TEXT_BITS
    if value == ERR:
        return fixed.ERR_BITS
    if value == NA:
        return fixed.NA_BITS
    return fixed.to_double_bits(value[1]) if value[0] == 'num' else 0


def _setting_records(saved):
    """The records in front of the cells."""
    s = saved.settings
    yield _record(BOF, b'\x06\x04')
    yield _record(RANGE, _u16s(0, 0, *_range_end(saved)))
    yield _record(CALCCOUNT, bytes([s.passes]))
    yield _record(CALCMODE, b'\xFF' if s.automatic else b'\x00')
    yield _record(CALCORDER, {'natural': b'\x00', 'columnwise': b'\x01', 'rowwise': b'\xFF'}[s.order])
    yield _record(PROTEC, b'\x01' if s.protection else b'\x00')
    yield _record(LABELFMT, bytes([s.prefix]))
    yield _record(WINDOW1, _u16s(*s.pointer) + bytes([s.format, 0]) + _u16s(s.width) + bytes(23))
    for col in sorted(saved.widths):
        yield _record(COLW1, _u16s(col) + bytes([saved.widths[col]]))
    if saved.hidden:
        yield _record(HIDVEC1, sum(1 << col for col in saved.hidden).to_bytes(32, 'little'))
    for name, (first, last) in saved.names.items():
        yield _record(NAME, name.ljust(16, b'\0') + _u16s(*first, *last))


def _number_record(head, v):
    """A number is saved in two bytes where it is whole and they can tell it."""
    whole, rest = divmod(v, fixed.ONE)
    if rest == 0 and -32768 <= whole <= 32767:
        return _record(INTEGER, head + whole.to_bytes(2, 'little', signed=True))
    return _record(NUMBER, head + fixed.to_double_bits(v).to_bytes(8, 'little'))


def _cell_records(cell, state):
    """The records of a cell: one, and behind a formula whose value is a text that text."""
    head, content = bytes([state.format]) + _u16s(*cell), state.content
    if content[0] == 'blank':
        return _record(BLANK_R, head)
    if content[0] == 'number':
        return _number_record(head, content[1])
    if content[0] == 'label':
        return _record(LABEL, head + bytes([content[1]]) + content[2] + b'\0')
    code = write_code(content[1], cell)
    out = _record(FORMULA, head + _value_bits(state.value).to_bytes(8, 'little') + _u16s(len(code)) + code)
    return out + _record(STRING, head + state.value[1] + b'\0') if state.value[0] == 'str' else out


def write(saved):
    """The one list of records, in the order in which this project writes them."""
    cells = (_cell_records(cell, saved.cells[cell]) for cell in sorted(saved.cells, key=row_order))
    return b''.join([*_setting_records(saved), *cells, _record(EOF)])
