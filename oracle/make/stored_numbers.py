"""Stored runs of numbers, whose lines tell them in millionths behind a letter without a blank:

    d NUMBER          the double of a number that is saved
    r BITS            what a double of these bits, in hexadecimal digits, holds
    a NUMBER NUMBER   the sum, difference, product, quotient and remainder
    p NUMBER NUMBER   the power
    o NUMBER PLACES   the number rounded to so many decimals
    w NUMBER PLACES   the text with so many decimals; n: at most so many, as General shows them; h: of a hundred times
                      the number
    t TEXT            the number that the text spells
    s NUMBER F WIDTH  what a cell of the format byte F and of that width shows"""
from ..model import fixed
from ..model.fixed import ONE
from ..model.names import Names
from ..model.session import VALUE_BEGINS
from .cases import any_double, broken, decimal, worked
from .runs import Run
from .stored_parts import EMPTY, entered, file_of, in_parts, number_record, of_number, saved_as, starting_with, typed

ROWS, ROOM = 20, 76
GENERAL, PERCENT = 0x71, 0x30
# the formulas over the numbers in the columns A and B, which a line of each letter asks for
OVER_TWO = {b'a': [b'+A1+B1', b'+A1-B1', b'+A1*B1', b'+A1/B1', b'@MOD(A1,B1)'], b'p': [b'+A1^B1'],
            b'o': [b'@ROUND(A1,B1)'],
            b'w': [b'@STRING(A1,B1)']}


# ---------------------------------------------------------------- lines

def number(r):
    """A number in millionths, whose size has 1 to 15 digits."""
    return r.randrange(10 ** r.randrange(1, 16)) * r.choice([1, -1])


def calculations(r):
    """400 lines of each letter: doubles, pairs of numbers, powers, numbers to be rounded and to be written, and
    decimals, some of which are broken."""
    for _ in range(400):
        yield b'r' + any_double(r)[::-1].hex().encode()
        yield b'a%d %d' % (number(r), number(r))
        few = (r.randrange(10 ** 7) * r.choice([1, -1]), r.randrange(-16, 17) * ONE)
        near_one = (r.randrange(980_000, 1_020_000), r.randrange(-1002, 1003) * ONE)
        yield b'p%d %d' % r.choice([few, few, few, near_one, (number(r), number(r))])
        yield b'o%d %d' % (number(r), r.randrange(-17, 18))
        yield from (b'%c%d %d' % (way, number(r), r.randrange(16)) for way in b'wnh')
        text = r.choice([b'', b'', b'-', b'+']) + decimal(r)
        yield b't' + (broken(r, text) if r.randrange(4) == 0 else text)


def shown_lines(r):
    """5,000 numbers as cells show them, in any format, an eighth of them dates, in widths of 1 to 24."""
    for row in range(5000):
        value = number(r) if row % 2 else abs(number(r)) % 100_000_000_000
        kind, detail = r.randrange(8), r.randrange(16)
        yield b's%d %d %d' % (value, 0x72 + detail % 3 if kind == 5 else kind * 16 + detail, r.randrange(1, 25))


def by_letter(r):
    """What stands behind each letter, in the worked lines and the random ones."""
    out = {}
    for line in [*worked('numbers').splitlines(), *shown_lines(r), *calculations(r)]:
        out.setdefault(line[:1], []).append(line[1:])
    return out


def whole_numbers(line):
    """The whole numbers of a line."""
    return [int(word) for word in line.split(b' ')]


# ---------------------------------------------------------------- doubles

def is_held(bits):
    """Whether a file may hold a number of these bits."""
    return fixed.from_double_bits(int.from_bytes(bits, 'little')) != fixed.TOO_LARGE


def doubles(texts):
    """Runs that read numbers of these bits from files and save them: those that are refused have a file of their
    own."""
    every = [bytes.fromhex(text.decode())[::-1] for text in texts]
    parts = [*in_parts([bits for bits in every if is_held(bits)], 150),
             *([bits] for bits in every if not is_held(bits))]
    for part in parts:
        records = b''.join(number_record((0, row), bits) for row, bits in enumerate(part))
        yield Run(*starting_with(EMPTY[:-4] + records + EMPTY[-4:], saved_as(b'LAST')))


def fill(r):
    """The keys of a fill of 200 numbers."""
    first, step = number(r) // 2, number(r) // 400
    last = b'999999999.999999' if step >= 0 else b'-999999999.999999'
    return b'/DFA1..A200~' + fixed.plain(first) + b'~' + fixed.plain(step or 1) + b'~' + last + b'~'


def saved_doubles(r, texts):
    """Runs that save numbers: those that are typed, and 20,000 that fills make."""
    numbers = [int(text) for text in texts] + [number(r) for _ in range(1000)]
    for part in in_parts(numbers, 100):
        yield Run(['--show', 'last'], b''.join(fixed.plain(value) + b'{D}' for value in part) + saved_as(b'LAST'), {})
    for _ in range(10):
        yield Run(['--show', 'last'], b''.join(fill(r) + saved_as(b'S%d' % turn) for turn in range(10)), {})


# ---------------------------------------------------------------- calculations and decimals

def over_two(formulas, texts):
    """Runs that enter formulas over two numbers of a row, and copy them to all rows."""
    last = b'%c' % (ord('B') + len(formulas))
    for part in in_parts(texts, 100):
        pairs = [whole_numbers(text) for text in part]
        cells = {(col, row): of_number(value) for row, pair in enumerate(pairs) for col, value in enumerate(pair)}
        keys = b'{GOTO}C1~' + b'~{RIGHT}'.join(formulas) + b'~/CC1..' + last + b'1~C1..C%d~' % len(part)
        yield Run(*starting_with(file_of(cells), keys + saved_as(b'LAST')))


def in_millionths(text):
    """A line with a count of decimals as a cell holds it."""
    value, places = whole_numbers(text)
    return b'%d %d' % (value, places * ONE)


def decimals(texts):
    """Runs that type decimals, broken ones too, and take them from texts."""
    for part in in_parts(texts, 40):
        keys = b''
        for row, text in enumerate(part):
            keys += entered(text, (0, row), Names()) if text[:1] and text[0] in VALUE_BEGINS else b''
            keys += b'{RIGHT}' + (b'@VALUE("' + typed(text) + b'")~' if b'"' not in text else b'') + b'{LEFT}{DOWN}'
        yield Run(['--show', 'last'], keys + saved_as(b'LAST'), {})


# ---------------------------------------------------------------- what cells show

def shown_cells(lines):
    """The numbers, formats and widths of cells that show what lines ask for: General shows as many decimals as there is
    room for."""
    yield from (whole_numbers(text) for text in lines[b's'])
    for value, places in map(whole_numbers, lines[b'n']):
        whole = fixed.plain(value).partition(b'.')[0]
        yield value, GENERAL, len(whole) + (places + 1 if places else 0) + 1
    yield from ((value, PERCENT + places, 34) for value, places in map(whole_numbers, lines[b'h']))


def columns_of(shown):
    """Columns of at most twenty rows, each with its width and the numbers and formats of its cells."""
    by_width = {}
    for value, code, width in shown:
        by_width.setdefault(width, []).append((value, code))
    return [(width, part) for width, cells in sorted(by_width.items()) for part in in_parts(cells, ROWS)]


def screens(shown):
    """Runs that show a file's numbers, as many columns as have room on the screen."""
    columns = columns_of(shown)
    while columns:
        cells, widths = {}, {}
        while columns and sum(widths.values()) + columns[0][0] <= ROOM:
            width, held = columns.pop(0)
            cells |= {(len(widths), row): of_number(value, code) for row, (value, code) in enumerate(held)}
            widths[len(widths)] = width
        yield Run(*starting_with(file_of(cells, widths=widths), b'{HOME}'))


def numbers(r):
    """Runs of all that is asked of numbers."""
    lines = by_letter(r)
    yield from doubles(lines[b'r'])
    yield from saved_doubles(r, lines[b'd'])
    for letter, formulas in OVER_TWO.items():
        texts = lines[letter] if letter in (b'a', b'p') else [in_millionths(text) for text in lines[letter]]
        yield from over_two(formulas, texts)
    yield from decimals(lines[b't'])
    yield from screens(shown_cells(lines))
