"""What formulas mean, as the manual's chapters on operators and functions have it.

`look` is any object with value(cell), content(cell) (a content; Blank where there is no state),
format(cell), width(col), filled(span) and the attribute `names`."""

from collections import namedtuple

from . import cellformat, dates, fixed, functions, text
from .address import NotAnAddress, cell_text, cells_of, height_of, in_span, read_cell, width_of
from .address import COLS, ROWS
from .formula import LEVEL, span_of
from .values import BLANK, ERR, FALSE, NA, TRUE, num, string

Scene = namedtuple('Scene', 'cursor now')  # now: a Moment

LAST_U64 = 2 ** 64 - 1


class Tally:
    """How many evaluations there were."""

    def __init__(self):
        self.count = 0

    def raise_by(self, n):
        """Adds to the count, which stays at the last u64."""
        self.count = min(LAST_U64, self.count + n)


def evaluate(formula, at, look, scene, tally):
    """The value, raising the tally by one (or leaving it at the last u64)."""
    tally.raise_by(1)
    return glance(formula, at, look, scene)


def glance(formula, at, look, scene, inside=False):
    """The same value without counting.  A top value Blank becomes 0.
    `inside`: inside a criterion formula, where an @D function is ERR."""
    v = _Mean(at, look, scene, inside).of(formula)
    return num(0) if v == BLANK else v


def sized(v):
    """A number, or ERR where there is none."""
    return ERR if v is None else num(v)


def truth(b):
    """1 or 0."""
    return TRUE if b else FALSE


def win(values):
    """If one is ERR the result is ERR, else if one is NA it is NA; else None."""
    if ERR in values:
        return ERR
    if NA in values:
        return NA
    return None


def compare_order(a, b):
    """Numbers by size, texts by folded bytes, any number less than any text; blank is 0."""
    a = num(0) if a == BLANK else a
    b = num(0) if b == BLANK else b
    if a[0] == 'num' and b[0] == 'num':
        return (a[1] > b[1]) - (a[1] < b[1])
    if a[0] == 'str' and b[0] == 'str':
        return text.fold_cmp(a[1], b[1])
    return -1 if a[0] == 'num' else 1


# functions of single values: code -> (kinds of the arguments, function); n a number, t a text
def _number(f):
    """A function whose result is a number."""
    return lambda *a: sized(f(*a))


def _text(f):
    """A function whose result is a text."""
    def g(*a):
        """The function, whose text is a value."""
        r = f(*a)
        return ERR if r is None else string(r)
    return g


SCALAR = {
    0x21: ('n', _number(abs)), 0x22: ('n', _number(fixed.int_)), 0x2F: ('nn', _number(fixed.modulo)),
    0x3F: ('nn', _number(lambda x, n: fixed.round_(x, functions.whole(n)))),
    0x36: ('nnn', _number(functions.date)), 0x3C: ('n', _number(functions.day)),
    0x3D: ('n', _number(functions.month)), 0x3E: ('n', _number(functions.year)),
    0x40: ('nnn', _number(functions.time)), 0x41: ('n', _number(functions.hour)),
    0x42: ('n', _number(functions.minute)), 0x43: ('n', _number(functions.second)),
    0x4D: ('t', _number(functions.datevalue)), 0x4E: ('t', _number(functions.timevalue)),
    0x46: ('t', lambda t: num(len(t) * fixed.ONE)), 0x47: ('t', _number(functions.value)),
    0x48: ('nn', _text(functions.string)), 0x49: ('tnn', _text(functions.mid)),
    0x68: ('tn', _text(functions.left)), 0x69: ('tn', _text(functions.right)),
    0x4A: ('n', _text(functions.char_of)), 0x4B: ('t', _number(functions.code)),
    0x4C: ('ttn', _number(functions.find_in)), 0x65: ('tn', _text(functions.repeat)),
    0x6A: ('tnnt', _text(functions.replace)), 0x66: ('t', _text(text.upper)),
    0x67: ('t', _text(text.lower)), 0x6B: ('t', _text(text.proper)), 0x6D: ('t', _text(text.trim)),
    0x6E: ('t', _text(lambda t: t)), 0x71: ('tt', lambda a, b: truth(a == b)),
}

LISTS = {0x50: 'sum', 0x51: 'avg', 0x52: 'count', 0x53: 'min', 0x54: 'max'}
DATABASE = {0x5B: 'sum', 0x5C: 'avg', 0x5D: 'count', 0x5E: 'min', 0x5F: 'max'}


def list_answer(which, items):
    """List functions over the gathered items, which are numbers, ERR or NA."""
    won = win(items)
    if won:
        return won
    numbers = [v[1] for v in items]
    if which == 'count':
        return num(len(numbers) * fixed.ONE)
    if which in ('min', 'max'):
        if not numbers:
            return ERR
        return num(min(numbers) if which == 'min' else max(numbers))
    total = fixed.sized(sum(numbers))  # sums are exact; beyond the size is ERR
    if total is None:
        return ERR
    if which == 'sum':
        return num(total)
    if not numbers:
        return ERR
    return num(functions.average(total, len(numbers)))


def range_item(value):
    """A cell of a range as an item of a list, or None: blanks are passed over, a label cell (any
    cell whose value is a text) counts as 0."""
    if value == BLANK:
        return None
    return num(0) if value[0] == 'str' else value


class _Mean:
    """What the formula in a cell means."""

    def __init__(self, at, look, scene, inside):
        self.at, self.look, self.scene, self.inside = at, look, scene, inside

    def of(self, e):
        """The value of a tree."""
        kind = e[0]
        if kind == 'num':
            return num(e[1])
        if kind == 'str':
            return string(e[1])
        if kind == 'cell':
            return self.look.value(span_of(e, self.at)[0])
        if kind == 'span':
            return ERR  # a span in a scalar place is ERR
        if kind == 'group':
            return self.of(e[1])
        if kind in ('neg', 'not'):
            v = self.of(e[1])
            won = win([v])
            if won:
                return won
            n = self.number(v)
            if n is None:
                return ERR
            return num(-n) if kind == 'neg' else truth(n == 0)
        if kind == 'bin':
            return binary(e[1], self.of(e[2]), self.of(e[3]))
        return self.call(e[1], e[2])

    @staticmethod
    def number(v):
        """A Blank counts as 0; None for a text."""
        if v == BLANK:
            return 0
        return v[1] if v[0] == 'num' else None

    def is_range(self, e):
        """A range argument must be a cell or a span operand; in brackets it is neither."""
        return e[0] in ('cell', 'span')

    def scalars(self, args, kinds):
        """The scalar arguments by kind ('n', 't', or 'x' for either), or ('stop', value)."""
        values = [self.of(a) for a in args]
        won = win(values)
        if won:
            return ('stop', won)
        out = []
        for v, kind in zip(values, kinds):
            if v == BLANK:
                v = num(0)  # a Blank argument counts as the number 0
            if kind == 'n' and v[0] != 'num' or kind == 't' and v[0] != 'str':
                return ('stop', ERR)
            out.append(v if kind == 'x' else v[1])
        return ('go', out)

    def call(self, code, args):
        """The value of a function."""
        if code in SCALAR:
            return self.with_scalars(args, *SCALAR[code])
        if code in LISTS:
            return list_answer(LISTS[code], self.items(args))
        if code in DATABASE:
            return self.database(DATABASE[code], args)
        return CALLS[code](self, args)

    def with_scalars(self, args, kinds, f):
        """What a function makes of scalar arguments of these kinds, or what stops it."""
        what, got = self.scalars(args, kinds)
        return got if what == 'stop' else f(*got)

    def now(self):
        """The moment, where its day is in the calendar."""
        now = self.scene.now
        if now.day is None or not 1 <= now.day <= dates.LAST_DAY:
            return ERR
        return num(now.day * fixed.ONE + dates.fraction_of(now.second))

    def chosen(self, args):
        """CHOOSE: the n-th value alone decides."""
        nth = lambda n: self.of(args[1 + n]) if 0 <= n < len(args) - 1 else ERR
        return self.with_scalars(args[:1], 'n', lambda n: nth(functions.whole(n)))

    def if_then(self, args):
        """IF: only the condition and the chosen value decide."""
        return self.with_scalars(args[:1], 'n', lambda n: self.of(args[1] if n != 0 else args[2]))

    def size_of(self, arg, size):
        """How many columns or rows a range has."""
        return num(size(span_of(arg, self.at)) * fixed.ONE) if self.is_range(arg) else ERR

    def attribute_of(self, args):
        """CELL: of the first cell of a range."""
        return self.attribute(args[0], span_of(args[1], self.at)[0]) if self.is_range(args[1]) else ERR

    def spelled(self, t):
        """@@: the value of the cell, or of the first cell of the name, that t spells."""
        try:
            cell = read_cell(t)
        except NotAnAddress:
            span = self.look.names.find(t)
            if span is None:
                return ERR
            cell = span[0]
        return self.look.value(cell)

    def items(self, args):
        """The items of a list function: the cells of spans that count, and one value for each other argument."""
        out = []
        for a in args:
            if a[0] == 'span':
                for cell in self.look.filled(span_of(a, self.at)):
                    item = range_item(self.look.value(cell))
                    if item is not None:
                        out.append(item)
            elif a[0] == 'cell':
                # one item and no range: a blank or label cell counts as 0 and is counted
                v = self.look.value(span_of(a, self.at)[0])
                out.append(num(0) if v == BLANK or v[0] == 'str' else v)
            else:
                v = self.of(a)
                if v == BLANK:
                    v = num(0)
                out.append(ERR if v[0] == 'str' else v)  # a scalar text is ERR
        return out

    def lookup(self, across, args):
        """VLOOKUP, HLOOKUP."""
        if not self.is_range(args[1]):
            return ERR
        what, got = self.scalars([args[0], args[2]], 'xn')
        if what == 'stop':
            return got
        x, n = got[0], functions.whole(got[1])
        span = span_of(args[1], self.at)
        (c0, r0), (c1, r1) = span
        lines = (c1 - c0 if across else r1 - r0) + 1
        depth = (r1 - r0 if across else c1 - c0) + 1
        if not 0 <= n < depth:
            return ERR

        def cell(line, k):
            """The cell of a line, so far from the first."""
            return (c0 + line, r0 + k) if across else (c0 + k, r0 + line)

        if x[0] == 'str':
            for line in range(lines):
                v = self.look.value(cell(line, 0))
                if v[0] == 'str' and text.fold(v[1]) == text.fold(x[1]):
                    return num(line * fixed.ONE) if n == 0 else self.look.value(cell(line, n))
            return ERR
        passed = None
        for line in range(lines):
            v = self.look.value(cell(line, 0))
            if v in (ERR, NA):
                break  # stops it as a greater number does
            size = v[1] if v[0] == 'num' else 0  # labels and blanks count as 0
            if size > x[1]:
                break
            passed = line
        return ERR if passed is None else self.look.value(cell(passed, n))

    def index(self, args):
        """@INDEX."""
        if not self.is_range(args[0]):
            return ERR
        what, got = self.scalars(args[1:], 'nn')
        if what == 'stop':
            return got
        col, row = functions.whole(got[0]), functions.whole(got[1])
        span = span_of(args[0], self.at)
        if not (0 <= col < width_of(span) and 0 <= row < height_of(span)):
            return ERR
        return self.look.value((span[0][0] + col, span[0][1] + row))

    def attribute(self, arg, cell):
        """CELL's attributes."""
        what, got = self.scalars([arg], 't')
        if what == 'stop':
            return got
        name = text.fold(got[0])
        look = self.look
        content = look.content(cell)
        if name == b'ADDRESS':
            t = cell_text(cell)
            letters = t.rstrip(b'0123456789')
            return string(b'$' + letters + b'$' + t[len(letters):])
        if name == b'COL':
            return num((cell[0] + 1) * fixed.ONE)
        if name == b'ROW':
            return num((cell[1] + 1) * fixed.ONE)
        if name == b'CONTENTS':
            return look.value(cell)
        if name == b'FORMAT':
            return string(cellformat.indicator(look.format(cell)).strip(b'()'))
        if name == b'PREFIX':
            return string(bytes([content[1]]) if content[0] == 'label' else b'')
        if name == b'PROTECT':
            return truth(look.format(cell) & 0x80)
        if name == b'TYPE':
            return string({'blank': b'b', 'label': b'l'}.get(content[0], b'v'))
        if name == b'WIDTH':
            return num(look.width(cell[0]) * fixed.ONE)
        return ERR

    def database(self, which, args):
        """The @D functions: the list function over column n of the matching records."""
        if self.inside:
            return ERR
        if not self.is_range(args[0]) or not self.is_range(args[2]):
            return ERR
        what, got = self.scalars(args[1:2], 'n')
        if what == 'stop':
            return got
        n = functions.whole(got[0])
        span, criterion = span_of(args[0], self.at), span_of(args[2], self.at)
        if not 0 <= n < width_of(span):
            return ERR
        if query_fault(span, criterion, self.look):
            return ERR
        items = []
        for row in range(span[0][1] + 1, span[1][1] + 1):
            if matches(span, criterion, row, self.look, self.scene) == 'Yes':
                item = range_item(self.look.value((span[0][0] + n, row)))
                if item is not None:
                    items.append(item)
        return list_answer(which, items)


# functions whose arguments aren't all values
CALLS = {
    0x1F: lambda mean, args: NA, 0x20: lambda mean, args: ERR,
    0x33: lambda mean, args: FALSE, 0x34: lambda mean, args: TRUE,
    0x37: lambda mean, args: mean.now(), 0x30: _Mean.chosen, 0x3B: _Mean.if_then,
    0x31: lambda mean, args: truth(mean.of(args[0]) == NA), 0x32: lambda mean, args: truth(mean.of(args[0]) == ERR),
    # 0 for a text and 1 for all else
    0x44: lambda mean, args: truth(mean.of(args[0])[0] != 'str'),
    0x45: lambda mean, args: truth(mean.of(args[0])[0] == 'str'),
    0x55: lambda mean, args: mean.lookup(False, args), 0x5A: lambda mean, args: mean.lookup(True, args),
    0x62: lambda mean, args: mean.index(args),
    0x63: lambda mean, args: mean.size_of(args[0], width_of), 0x64: lambda mean, args: mean.size_of(args[0], height_of),
    0x4F: lambda mean, args: mean.attribute(args[0], mean.scene.cursor), 0x6C: _Mean.attribute_of,
    0x73: lambda mean, args: mean.with_scalars(args, 't', mean.spelled),
}


def binary(op, a, b):
    """What an operator gives."""
    won = win([a, b])
    if won:
        return won
    if op == '&':
        parts = []
        for v in (a, b):
            if v == BLANK:
                parts.append(b'')
            elif v[0] == 'str':
                parts.append(v[1])
            else:
                return ERR
        joined = parts[0] + parts[1]
        return string(joined) if len(joined) <= text.MAX else ERR
    if LEVEL[op] == 3:
        c = compare_order(a, b)
        return truth({'=': c == 0, '<>': c != 0, '<': c < 0, '>': c > 0, '<=': c <= 0, '>=': c >= 0}[op])
    x, y = _Mean.number(a), _Mean.number(b)
    if x is None or y is None:
        return ERR
    if op == 'AND':
        return truth(x != 0 and y != 0)
    if op == 'OR':
        return truth(x != 0 or y != 0)
    return sized({'^': fixed.pow_, '*': fixed.mul, '/': fixed.div, '+': fixed.add, '-': fixed.sub}[op](x, y))


# ---- record match ----

def label_text(look, cell):
    """The text of a label, or None: in queries a label is a cell whose content is a label: this project's
    choice; list functions and lookups take a text value as one too."""
    content = look.content(cell)
    return content[2] if content[0] == 'label' else None


def fields(span, look):
    """The folded field names of the input's first row, or None (Q1): the input has one row or holds
    a cell in its first row that is no label."""
    if span[0][1] == span[1][1]:
        return None
    out = []
    for col in range(span[0][0], span[1][0] + 1):
        t = label_text(look, (col, span[0][1]))
        if t is None:
            return None
        out.append(text.fold(t))
    return out


def field_column(names, look, cell):
    """The place of the field that a header cell names (the first of that name), or None."""
    t = label_text(look, cell)
    if t is None or text.fold(t) not in names:
        return None
    return names.index(text.fold(t))


def query_fault(span, criterion, look):
    """None, ('NoFieldRow',) or ('FieldAbsent', cell): Q1, then Q2 of the criterion, the first header
    cell whose text is no field and which stands above a condition that isn't blank and no formula."""
    names = fields(span, look)
    if names is None:
        return ('NoFieldRow',)
    top = criterion[0][1]
    for col in range(criterion[0][0], criterion[1][0] + 1):
        if field_column(names, look, (col, top)) is None:
            below = ((col, top + 1), (col, criterion[1][1]))
            if top < criterion[1][1] and any(look.content(c)[0] in ('number', 'label') for c in cells_of(below)):
                return ('FieldAbsent', (col, top))
    return None


def pattern_matches(pattern, t):
    """folded; ? is any one byte, * is the rest."""
    pattern, t = text.fold(pattern), text.fold(t)
    for i, p in enumerate(pattern):
        if p == 0x2A:
            return True
        if i >= len(t) or (p != 0x3F and p != t[i]):
            return False
    return len(pattern) == len(t)


def label_condition(pattern, value):
    """A leading ~ negates; what isn't a text matches no pattern, and so every negated one."""
    if pattern[:1] == b'~':
        return not label_condition_plain(pattern[1:], value)
    return label_condition_plain(pattern, value)


def label_condition_plain(pattern, value):
    """Whether a text meets a pattern."""
    return value[0] == 'str' and pattern_matches(pattern, value[1])


def condition_holds(cell, field_value, shift, look, scene):
    """Whether a field's value meets the condition that a cell of the criterion holds."""
    content = look.content(cell)
    if content[0] == 'blank':
        return True
    if content[0] == 'number':
        return field_value == num(content[1])
    if content[0] == 'label':
        return label_condition(content[2], field_value)
    # as if it had been copied down by `shift` rows, its own row counted modulo 8192
    at = (cell[0], (cell[1] + shift) % ROWS)
    v = glance(content[1], at, look, scene, inside=True)
    return v[0] == 'num' and v[1] != 0


def matches(span, criterion, row, look, scene):
    """'Yes', 'No', 'NoFieldRow' or ('FieldAbsent', cell)."""
    fault = query_fault(span, criterion, look)
    if fault:
        return 'NoFieldRow' if fault[0] == 'NoFieldRow' else fault
    if row == span[0][1]:
        return 'No'  # the input's first row
    names = fields(span, look)
    shift = row - (span[0][1] + 1)
    top = criterion[0][1]
    for r in range(top + 1, criterion[1][1] + 1):  # a criterion of one row matches nothing
        holds = True
        for col in range(criterion[0][0], criterion[1][0] + 1):
            place = field_column(names, look, (col, top))
            field_value = BLANK if place is None else look.value((span[0][0] + place, row))
            if not condition_holds((col, r), field_value, shift, look, scene):
                holds = False
                break
        if holds:
            return 'Yes'
    return 'No'
