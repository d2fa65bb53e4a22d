"""Stored runs of formulas: what they are printed as, where their faults are, what they come to, and how moves, inserts
and deletes change them.

A line of worked/formulas is the text of a formula.

A line of worked/values and of worked/functions is a formula over a block of cells. `:` begins a block, whose next cell,
row by row over the columns A to H, gets a number from `:N`, a label from `:L` with its prefix and its text, a formula
from `:V`, and nothing from `:B`.

A line of worked/adjustments has a letter, a formula's cell, the span of an edit, the cell that its first corner moves
to, a span that gets a name, and the formula's text. The letters are `M` for a move, `r` and `c` for rows and columns
inserted in front of the span, as many as it has, and `R` and `C` for its rows and columns deleted."""
from ..model import formula
from ..model.address import col_text, read_cell
from ..model.fixed import read_decimal
from ..model.formula import LEFT_OUT_NAMES
from ..model.names import Names, names_of
from ..model.sheet import State
from .cases import Texts, WORDS, broken, is_read, mixed, worked
from .runs import Run
from .stored_parts import (AS_LABEL, as_value, entered, file_of, goto, in_parts, is_value, named, of_formula, of_label,
                           of_number, saved_as, starting_with)

# ---------------------------------------------------------------- texts

FORMULA_CELLS = [(5, 5), (0, 0), (255, 8191)]
FORMULA_NAMES = [(b'TOTAL', 'A1'), (b'rates', 'B3..D10'), (b'PRICES', 'B3..D10'), (b'1', 'C3'), (b'TAX_RATE', 'C3'),
                 (b'A1', 'D4'), (b'NET PAY', 'E5'), (b'IW1', 'F6..G7'), (b'Q', 'IV8192'),
                 (b'EXACTLY15LETTER', 'A8..C8')]


def printed(text, at, names):
    """Keys that leave a formula's text as it is printed in the pointer's cell as a label, or the faulty text with a
    mark."""
    good = is_value(as_value(text), at, names)
    return entered(text, at, names) + (b'{EDIT}' + AS_LABEL if good else b'')


def texts_of_formulas(r):
    """5,000 texts, whole or broken, some with functions that are left out or names that nobody made, and the worked
    ones."""
    names = [name for name, _ in FORMULA_NAMES if name.isalnum() or b'_' in name] + [b'NOBODY', b'IW1', b'A9000']
    texts = Texts(r, 6, 8, True, names)
    for _ in range(5000):
        text = mixed(r, texts.tree(r.choice([1, 2, 3, 4, 6])))
        if r.randrange(12) == 0:
            text = text.replace(b'@', b'@' + r.choice([*sorted(LEFT_OUT_NAMES), b'XYZ', b'']), 1)
        yield broken(r, text) if r.randrange(3) == 0 else text
    yield from worked('formulas').splitlines()


def formulas(r):
    """Runs of formula texts in a corner of the sheet, amid it and in its other corner: each text is typed there, and
    the label that it is printed in is copied aside."""
    names = names_of(FORMULA_NAMES)
    texts = list(texts_of_formulas(r))
    for turn, at in enumerate(FORMULA_CELLS):
        for part in in_parts(texts[turn::len(FORMULA_CELLS)], 36):
            keys = goto(at) + b''.join(printed(text, at, names) + b'/C~Z%d~' % row for row, text in enumerate(part, 1))
            yield Run(*starting_with(file_of({}, names=names), keys + saved_as(b'LAST')))


# ---------------------------------------------------------------- values

VALUE_NAMES = [(b'TOTAL', 'B1'), (b'RATES', 'A1..D6'), (b'LIST', 'B2..H2')]
# where the formulas stand, one below another
VALUE_CELL = (9, 19)
CODES = (0xFF, 0x82, 0x72, 0x00, 0x7F)


def held(r, texts):
    """A line that fills the next cell of a block."""
    number = lambda: r.choice([
        b'%d' % r.randrange(-20, 20), b'%d' % r.randrange(-40000, 80000), b'%.6f' % r.uniform(-1, 1),
        b'%.2f' % r.uniform(-100, 100), b'31929.586806', b'999999999.999999', b'0'])
    return r.choice([
        lambda: b':N' + number(), lambda: b':N' + number(), lambda: b':N' + number(), lambda: b':B',
        lambda: b':L' + bytes([r.choice(b"'\"^\\|")]) + r.choice(WORDS), lambda: b':V' + texts.tree(1)])()


FIELDS = [b'NAME', b'Pay', b'AGE', b'X y']
PATTERNS = [b'A*', b'~A*', b'??', b'*', b'~', b'ab', b'~ab?', b'', b'AB']


def criterion_formula(r):
    """A formula for a condition: mostly over the first record's cells."""
    def cell():
        return r.choice([b'', b'', b'', b'$']) + col_text(r.randrange(4)) + b'%d' % r.choice([2, 2, 2, 3, 1])
    operator = r.choice([b'>', b'<', b'=', b'<>', b'-', b'#AND#', b'+'])
    inner = r.choice([lambda: b'%d' % r.randrange(-3, 9), cell, cell, lambda: b'@DSUM(A1..D7,1,E1..F2)',
                      lambda: b'@ISERR(@DCOUNT(A1..D7,1,E1..E2))', lambda: b'@CELLPOINTER("col")', lambda: b'"AB"'])
    return b'+' + cell() + operator + inner()


def records(r, texts):
    """The lines of a block with records in the columns A to D and conditions in E to H."""
    spoilt = r.randrange(4) == 0
    value = lambda: r.choice([b':N%d' % r.randrange(-3, 9)] * 4
                             + [b':B', b":L'" + r.choice([b'AB', b'ab', b'abc', b'A', b'']),
                                                                 b':V' + r.choice([b'@NA', b'@ERR'] if spoilt
                                                                                  else [b'"ab"', b'1.5'])])
    out = []
    for col in range(8):
        name = r.choice(FIELDS) if col >= 4 or r.randrange(25) == 0 else FIELDS[col]
        if r.randrange(60) == 0:
            name = r.choice([b'OTHER', b''])
        name = r.choice([name, name, name.lower()])
        out.append(r.choice([b':B', b':N5']) if r.randrange(100) == 0 else b":L'" + name)
    for row in range(1, r.randrange(3, 9)):
        out += [value() for _ in range(4)]
        for col in range(4, 8):
            out.append(r.choice([
                lambda: b':B', lambda: b':B', lambda: b':N%d' % r.randrange(-3, 9), lambda: b":L'" + r.choice(PATTERNS),
                lambda: b':V' + criterion_formula(r), lambda: b':V' + criterion_formula(r)])())
    return out


def record_formula(r, texts):
    """A function of records, mostly over the whole block of records and a few conditions."""
    first = r.choice([4, 4, 5, 6])
    source = r.choice([b'A1..D%d' % r.choice([1, 2, 3, 4, 5, 6, 7, 8])] * 16
                      + [texts.span(), texts.cell(), b'RATES', b'(A1..D6)'])
    number = r.choice([b'%d' % r.randrange(4)] * 20 + [b'-1', b'4', b'1.9', b'@NA', b'1/0', b'"x"', b'H9',
                                                       texts.cell()])
    last = r.choice([first, first, first + 1])
    criterion = r.choice([col_text(first) + b'1..' + col_text(last) + b'%d' % r.choice([1, 2, 2, 2, 3, 4])] * 16
                         + [texts.span(), texts.cell(), b'5'])
    call = r.choice([b'@DSUM', b'@DAVG', b'@DCOUNT', b'@DMIN',
                     b'@DMAX']) + b'(' + b','.join([source, number, criterion]) + b')'
    return call if r.randrange(5) else call + r.choice([b'+1', b'&"x"', b'*2'])


def blocks(r):
    """The lines of each block's cells and the formulas over it: the worked ones, and 500 blocks with formulas up to
    20,000 beside those of the bounds of functions."""
    head = list(worked_blocks())
    left = 20000 - sum(len(formulas) for _, formulas in head[:-1])
    yield from head
    texts = Texts(r, 9, 9, False, [name for name, _ in VALUE_NAMES])
    for block in range(500, 0, -1):
        count = left // block
        left -= count
        made = [record_formula(r, texts) if block % 5 == 0 else texts.tree(r.choice([1, 1, 2, 3]))
                for _ in range(count)]
        lines = records(r, texts) if block % 5 == 0 else [held(r, texts) for _ in range(r.randrange(8, 72))]
        yield lines, made


def worked_blocks():
    """The blocks of the worked lines, the bounds of functions last."""
    for part in (worked('values') + worked('functions')).split(b':\n')[1:]:
        lines = part.splitlines()
        yield [line for line in lines if line[:1] == b':'], [line for line in lines if line[:1] != b':']


def momentless(text):
    """A text that comes to the same at any moment: it asks whether the moment is a number."""
    return text.replace(b'@NOW', b'@ISNUMBER(@NOW)')


def state_of(line, at, code, names):
    """What a line puts into a cell of a block."""
    kind, text = line[1:2], line[2:]
    if kind == b'N' and isinstance(read_decimal(text), int):
        return of_number(read_decimal(text), code)
    if kind == b'L':
        return of_label(text[1:], text[0], code)
    if kind == b'V' and is_read(text, at, names):
        return of_formula(formula.read(text, at, names), code)
    return State(format=code)


def block_file(lines, names):
    """The file of a block: the columns A to H, row by row, as many cells as there are lines, and each column in a width
    of its own."""
    cells = {}
    for place, line in enumerate(lines):
        at = place % 8, place // 8
        cells[at] = state_of(line, at, CODES[place % len(CODES)], names)
    return file_of(cells, names=names, widths={col: col % 4 + 5 for col in range(8)})


def values(r):
    """Runs of formulas over blocks of cells, whose values stand in the file that is saved."""
    names = names_of(VALUE_NAMES)
    for lines, texts in blocks(r):
        data = block_file([momentless(line) for line in lines], names)
        for part in in_parts([momentless(text) for text in texts], 45):
            keys = goto(VALUE_CELL)
            for row, text in enumerate(part, VALUE_CELL[1]):
                keys += entered(text, (VALUE_CELL[0], row), names) + b'{DOWN}'
            yield Run(*starting_with(data, keys + saved_as(b'LAST')))


# ---------------------------------------------------------------- adjustments

def any_cell(r):
    """A cell near A1 or at an edge of the sheet."""
    return col_text(r.choice([*range(8), 26, 254, 255])) + b'%d' % r.choice([*range(1, 9), 101, 8191, 8192])


def changes(r):
    """The worked lines, and 300 edits with a named span and a formula each."""
    yield from worked('adjustments').splitlines()
    texts = Texts(r, 8, 8, True, [])
    near = lambda: col_text(r.randrange(8)) + b'%d' % r.randrange(1, 9)
    span = lambda: near() + b'..' + (near() if r.randrange(3) else any_cell(r))
    for _ in range(300):
        at = near() if r.randrange(4) else any_cell(r)
        text = r.choice([texts.leaf, lambda: b'@SUM(' + texts.span() + b')', lambda: texts.tree(2)])()
        to = near() if r.randrange(3) else any_cell(r)
        yield b' '.join([bytes([r.choice(b'MMrcRC')]), at, span(), to, span(), momentless(text)])


CHANGES = {b'r': b'/WIR', b'c': b'/WIC', b'R': b'/WDR', b'C': b'/WDC'}


def adjusted(line):
    """Keys that change a fresh sheet with a formula and a named span, and save it."""
    letter, at, source, to, span, text = line.split(b' ', 5)
    change = b'/M' + source + b'~' + to + b'~' if letter == b'M' else CHANGES[letter] + source + b'~'
    cell = read_cell(at)
    return b'/WEY' + goto(cell) + entered(text, cell, Names()) + named(b'SPAN', span) + change + b'{ESC}'


def adjustments(r):
    """Runs of moves, inserts and deletes, each on a fresh sheet that is saved then."""
    for part in in_parts(list(changes(r)), 12):
        keys = b''.join(adjusted(line) + saved_as(b'S%d' % number) for number, line in enumerate(part))
        yield Run(['--show', 'last'], keys, {})
