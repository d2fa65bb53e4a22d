"""Stored runs of what cells, names, texts and formulas stand on. Their lines are told by letters, without a blank
behind them:

    a TEXT               the name of a span, or the cell to go to
    r CELL AT C R OTHER  the reference to the first cell that stands in the second, with the column or the row absolute
                         for `$`, copied to the third
    l PREFIX WIDTH TEXT  a label and the width in which it is shown; no blank is behind the prefix
    f BYTE               the indicator of a format
    c BYTE               the function of a code
    d YEAR MONTH DAY     the number of a date
    y NUMBER             the date of this day, the second of a day's millionth, and the millionth of its second
    t TEXT               the text in upper, lower and proper case and trimmed, and with a byte behind it
    q FROM WHAT TEXT     where the one stands in the other, and which comes first; a tab is between the two
    e WORDS              a formula's tree, operands first: numbers in millionths, `'` and a text, `long` for the
                         longest, `cell` and `span` with their cells, operators, `neg`, `not`, `group`, and `call`
                         with a code and a count; `many` and a count repeat a word
    :                    a case of names begins: `+` makes one for a span, `-` deletes one, `?` finds its span, `@`
                         prints a formula over a span, and `>` puts in the next one behind a text"""
from ..model import formula, wk1
from ..model.address import cell_text, ordered, read_cell, read_span, ref_of, span_text
from ..model.dates import LAST_DAY
from ..model.fixed import LIMIT, ONE
from ..model.formula import CODE_OF, COUNTED, FUNCTIONS
from ..model.names import Names
from ..model.text import MAX, TextFault, check
from .cases import OPERATORS, TEXT_BYTES, broken, mixed, worked
from .runs import Run
from .stored_parts import (AS_LABEL, file_of, formula_file, goto, in_parts, name_file, named, of_label, of_number,
                           saved_as, starting_with, typed)

# names of which some are never written for their spans
WORDS = [b'TOTAL', b'RENT_2', b'RENT', b'IW1', b'B', b'A0', b'A1', b'Z', b'Z9', b'1A', b'A B', b'_X', b'A.B',
         b'EXACTLY15LETTER']
# the cell in which the trees stand
AT = (2, 4)
FAR = b'{GOTO}Z7000~'
NOW, IS_NUMBER = CODE_OF[b'NOW'], CODE_OF[b'ISNUMBER']


# ---------------------------------------------------------------- the lines

def any_cell(r):
    """A cell, often at an edge of the sheet or of its columns' letters."""
    return r.choice([0, 25, 26, 51, 52, 255, r.randrange(256)]), r.choice([0, 8, 9, 98, 99, 998, 999, 8191,
                                                                           r.randrange(8192)])


def address(r):
    """A cell or a span in letters of either case, or a broken one."""
    one, two = mixed(r, cell_text(any_cell(r))), mixed(r, cell_text(any_cell(r)))
    text = r.choice([one, one + b'.' * r.choice([1, 1, 2, 2, 3]) + two])
    return broken(r, text) if r.randrange(3) == 0 else text


def any_text(r, most=16):
    """Words, or any bytes; seldom with one that no text has, or as long as a text may be or longer."""
    odd = r.randrange(16)
    if odd == 0:
        return bytes(r.choice(b'aB ') for _ in range(r.randrange(MAX - 3, MAX + 4)))
    text = bytes(r.choice(r.choice([b'abYZ', b" '-9", TEXT_BYTES])) for _ in range(r.randrange(most)))
    return text + bytes([r.choice(b'\1\t\r\x1f')]) + text if odd == 1 else text


def placed_text(r):
    """A text, what is sought in it, and from where."""
    text = bytes(r.choice(b'aAb ') for _ in range(r.randrange(12)))
    at = r.randrange(len(text) + 1)
    what = r.choice([text[at:at + r.randrange(4)], bytes(r.choice(b'aAb') for _ in range(r.randrange(4))),
                     mixed(r, text)])
    return b'q%d %s\t%s' % (r.randrange(len(text) + 2), what, text)


def any_leaf(r):
    """An operand as a line tells it."""
    return r.choice([lambda: b'%d' % r.randrange(LIMIT), lambda: b'%d' % (r.randrange(9) * ONE), lambda: b"'"
                     + b'ab'[:r.randrange(3)],
                     lambda: b'cell ' + cell_text(any_cell(r)),
                     lambda: b'span ' + cell_text(any_cell(r)) + b' ' + cell_text(any_cell(r)),
                     lambda: r.choice([b'-1', b"'a\"", b'long', b'0'])])()


def any_tree(r, depth):
    """The words of a tree, of which many operands stand in brackets."""
    def part():
        words = any_tree(r, depth - 1)
        return words + b' group' if r.randrange(2) else words

    kind = r.randrange(6) if depth else 0
    if kind == 0:
        return any_leaf(r)
    if kind == 1:
        return part() + r.choice([b' neg', b' not'])
    if kind == 2:
        code = r.choice(sorted(FUNCTIONS))
        least, most = FUNCTIONS[code][1:]
        count = max(0, r.randrange(least, min(most, least + 3) + 1) + r.choice([0] * 20 + [-1, 1]))
        return b' '.join([part() for _ in range(count)] + [b'call %d %d' % (code, count)])
    return part() + b' ' + part() + b' ' + r.choice(OPERATORS)


def deep_tree(r):
    """A tree about as deep as a formula's may be."""
    return any_tree(r, r.choice([0, 0, 1])) + b' many %d ' % r.randrange(253,
                                                                         258) + r.choice([b'group', b'neg', b'not'])


def long_tree(r):
    """A tree whose code is about as long as a formula's may be."""
    code = r.choice(COUNTED)
    sums = b'many 255 long call %d 255 many 13 long call %d 13 many %d 1 call %d %d'
    count = r.randrange(70, 77)
    return sums % (code, code, count, code, count + 2)


def any_name(r):
    """A name, good or bad."""
    return bytes(r.choice(r.choice([b'aAbB', b'12', b' _.$\x1f\xff~']))
                 for _ in range(r.choice([0, 1, 1, 2, 2, 3, 14, 15, 16])))


def names_case(r):
    """The lines of one case of names: few, of few spans, so that most are met again."""
    pool = [*r.sample(WORDS, 5), any_name(r)]
    spans = [span_text(ordered(any_cell(r), any_cell(r))) for _ in range(2)] + [b'A1']
    yield b':'
    for _ in range(16):
        name = mixed(r, r.choice(pool)) if r.randrange(8) else any_name(r)
        yield r.choice([b'+' + r.choice(spans) + b' ' + name] * 4
                       + [b'-' + name, b'?' + name, b'@' + r.choice(spans), b'>' + name])


def lines(r):
    """The worked lines, all formats and codes, and some hundred of each other letter."""
    yield from worked('base').split(b'\n')[:-1]
    yield from (b'%c%d' % (letter, byte) for letter in b'fc' for byte in range(256))
    for row in range(400):
        yield b'a' + address(r)
        cells = [cell_text(any_cell(r)) for _ in range(3)]
        yield b'r%s %s %c %c %s' % (*cells[:2], r.choice(b'$-'), r.choice(b'$-'), cells[2])
        yield b'l%c%d %s' % (r.choice(b"'\"^\\|"), r.choice([0, 1, 2, 9, MAX, r.randrange(25)]), any_text(r, 24))
        yield b'd%d %d %d' % (r.randrange(1896, 2104), r.randrange(14), r.randrange(33))
        yield b'y%d' % r.choice([r.randrange(LAST_DAY + 10), r.randrange(LAST_DAY + 10), r.randrange(ONE),
                                 r.randrange(1 << 32)])
        yield b't' + any_text(r)
        yield placed_text(r)
        yield b'e' + (long_tree(r) if row % 50 == 0 else deep_tree(r) if row % 10 == 0
                      else any_tree(r, r.choice([1, 2, 2, 3])))
    for _ in range(200):
        yield from names_case(r)


# ---------------------------------------------------------------- addresses

def addresses(rest):
    """Runs that give names to what may be a span, and go to what may be a cell to leave a mark there."""
    for part in in_parts(rest, 40):
        keys = b''.join(named(b'N%d' % turn, typed(text)) + b'{ESC}{GOTO}' + typed(text) + b'~{ESC}%d~' % turn
                        for turn, text in enumerate(part))
        yield Run(['--show', 'last'], keys + saved_as(b'LAST'), {})


def reference(rest):
    """Keys that enter a reference in a cell, copy it to another and print it there, and count what stands between its
    cells."""
    target, at, col, row, other = rest.split(b' ')
    letters = target.rstrip(b'0123456789')
    text = b'+' + col.strip(b'-') + letters + row.strip(b'-') + target[len(letters):]
    return (b'{GOTO}' + at + b'~' + text + b'~/C~' + other + b'~{GOTO}' + other + b'~{EDIT}' + AS_LABEL
            + named(b'SPAN', target + b'..' + at) + b'{GOTO}IU7~@COUNT(SPAN)~')


def references(rest):
    """Runs of references, each on a fresh sheet that is saved before the next."""
    for part in in_parts(rest, 12):
        keys = b''.join(reference(text) + saved_as(b'S%d' % turn) + b'/WEY' for turn, text in enumerate(part))
        yield Run(['--show', 'last'], keys, {})


# ---------------------------------------------------------------- labels and texts

def is_text(text):
    """Whether a file may hold the text."""
    try:
        check(text)
        return True
    except TextFault:
        return False


def labels(rest):
    """Runs of a macro that puts what labels show into cells, in their widths; a label that no file may hold has a file
    of its own."""
    every = [(text[0], *text[1:].split(b' ', 1)) for text in rest]
    for part in in_parts([label for label in every if is_text(label[2]) and label[1] != b'0'], 100):
        cells, names = {}, Names()
        names.create(b'\\A', ((2, 0), (2, 0)))
        for row, (prefix, width, text) in enumerate(part):
            cells[0, row] = of_label(text, prefix)
            cells[2, row] = of_label(b'{CONTENTS B%d,A%d,%s}' % (row + 1, row + 1, width))
        yield Run(*starting_with(file_of(cells, names=names), b'{ALT A}' + saved_as(b'LAST')))
    for prefix, _, text in every:
        if not is_text(text):
            yield Run(*starting_with(file_of({(0, 0): of_label(text, prefix)}), b''))


def over(formulas, cells, count):
    """A run that enters formulas over the cells of the first row, from column D on, and copies them to so many rows."""
    last = b'%c' % (ord('C') + len(formulas))
    keys = b'{GOTO}D1~' + b'~{RIGHT}'.join(formulas) + b'~/CD1..' + last + b'1~D1..D%d~' % count
    return Run(*starting_with(file_of(cells), keys + saved_as(b'LAST')))


OF_TEXT = [b'@UPPER(A1)', b'@LOWER(A1)', b'@PROPER(A1)', b'@TRIM(A1)', b'+A1&"x"', b'+A1&@CHAR(9)', b'@LENGTH(A1)']
OF_TWO = [b'@FIND(A1,B1,C1)', b'+A1=B1', b'+A1<B1', b'+A1>B1', b'@EXACT(A1,B1)']


def forms(rest):
    """Runs of texts in their cases, trimmed and with a byte more; a text that no file may hold has a file of its
    own."""
    for part in in_parts([text for text in rest if is_text(text)], 100):
        yield over(OF_TEXT, {(0, row): of_label(text) for row, text in enumerate(part)}, len(part))
    for text in rest:
        if not is_text(text):
            yield Run(*starting_with(file_of({(0, 0): of_label(text)}), b''))


def found(rest):
    """Runs that seek texts in texts and compare them."""
    for part in in_parts(rest, 100):
        cells = {}
        for row, line in enumerate(part):
            start, _, both = line.partition(b' ')
            what, text = both.split(b'\t')
            cells |= {(0, row): of_label(what), (1, row): of_label(text),
                      (2, row): of_number(min(int(start) * ONE, LIMIT))}
        yield over(OF_TWO, cells, len(part))


# ---------------------------------------------------------------- dates

OF_DATE = [b'@DATE(A1,B1,C1)']
OF_DAY = [b'@YEAR(A1)', b'@MONTH(A1)', b'@DAY(A1)', b'@HOUR(B1)', b'@MINUTE(B1)', b'@SECOND(B1)',
          b'@TIME(@INT(C1/3600),@INT(@MOD(C1,3600)/60),@MOD(C1,60))']


def dates(rest):
    """Runs of dates of years, months and days."""
    for part in in_parts(rest, 150):
        words = [[int(word) for word in line.split(b' ')] for line in part]
        cells = {(col, row): of_number((word - 1900 * (col == 0)) * ONE)
                 for row, line in enumerate(words) for col, word in enumerate(line)}
        yield over(OF_DATE, cells, len(part))


def days(rest):
    """Runs of days, of fractions of a day with so many millionths, and of so many seconds of a day."""
    for part in in_parts(rest, 100):
        cells = {}
        for row, number in enumerate(map(int, part)):
            cells |= {(0, row): of_number(min(number * ONE, LIMIT)), (1, row): of_number(min(number, LIMIT)),
                      (2, row): of_number(number % 86_400 * ONE)}
        yield over(OF_DAY, cells, len(part))


# ---------------------------------------------------------------- formats, codes and trees

def formats(rest):
    """A run whose pointer goes down over cells of all formats, which the screen tells."""
    cells = {(0, row): of_number(1_234_500, int(code)) for row, code in enumerate(rest)}
    options, keys, folder = starting_with(file_of(cells), b'{DOWN %d}' % len(rest))
    yield Run(options[:2], keys, folder)


def codes(rest):
    """Runs that begin with a formula of a code, behind as many numbers as its function takes, and show it."""
    for code in map(int, rest):
        count = FUNCTIONS[code][1] if code in FUNCTIONS else 1
        behind = bytes([count]) if code in COUNTED else bytes([IS_NUMBER]) if code == NOW else b''
        told = b'\5\1\0' * count + bytes([code]) + behind + b'\3'
        yield Run(*starting_with(formula_file(AT, told), goto(AT) + saved_as(b'LAST')))


def momentless(call):
    """The call, or whether the moment is a number in the place of the moment."""
    return ('call', IS_NUMBER, [call]) if call[1] == NOW else call


def leaf(word):
    """The tree of one word."""
    if word == b'long':
        return ('str', b'x' * MAX)
    return ('str', word[1:]) if word[:1] == b"'" else ('num', int(word))


def tree_of(words):
    """The tree that words tell, operands first."""
    stack, words = [], iter(words)

    def take(count):
        taken = stack[len(stack) - count:]
        del stack[len(stack) - count:]
        return taken

    def of_word(word):
        if word in OPERATORS:
            return ('bin', word.strip(b'#').decode(), *take(2))
        return (word.decode(), *take(1)) if word in (b'neg', b'not', b'group') else leaf(word)

    def ref(absolute):
        return ref_of(read_cell(next(words)), AT, absolute, absolute)

    for word in words:
        count = 1
        if word == b'many':
            count, word = int(next(words)), next(words)
        for _ in range(count):
            stack.append(momentless(('call', int(next(words)), take(int(next(words))))) if word == b'call'
                         else ('cell', ref(False)) if word == b'cell' else ('span', ref(True), ref(False))
                         if word == b'span'
                         else of_word(word))
    return stack.pop()


def touched(expr):
    """Keys that enter a number in the first corner of each span that a tree reads, and elsewhere, so that the count of
    evaluations tells what it reads and whether it is always evaluated."""
    corners = [first for first, _ in formula.reads(expr, AT)]
    return FAR + b'1~' + b''.join(goto(cell) + b'1~' for cell in corners[:8] if cell != AT)


def can_stand(expr):
    """Whether a file has room for a tree's code, and for the counts of arguments in it."""
    todo = [expr]
    while todo:
        one = todo.pop()
        if one[0] == 'call' and len(one[2]) > 255:
            return False
        todo.extend(formula.kids(one))
    return formula.code_size(expr) <= 65520


def trees(rest):
    """Runs that begin with a formula of a tree's code: it is refused, or saved and printed, and evaluated as often as
    what it reads changes."""
    for line in rest:
        expr = tree_of(line.split(b' '))
        if can_stand(expr):
            keys = saved_as(b'FIRST') + touched(expr) + goto(AT) + b'{EDIT}' + AS_LABEL + b'{ESC}' + saved_as(b'LAST')
            yield Run(*starting_with(formula_file(AT, wk1.write_code(expr, AT)), keys, '--count'))


# ---------------------------------------------------------------- names

def name_keys(line, turn):
    """Keys that make or delete a name, find its span, print a formula over a span, or put in the next name."""
    mark, rest = line[:1], line[1:]
    if mark == b'+':
        span, _, name = rest.partition(b' ')
        return named(name, span)
    if mark == b'-':
        return b'/RND' + typed(rest) + b'~{ESC}'
    if mark == b'?':
        return named(b'!Q', typed(rest)) + b'{ESC}' + saved_as(b'S%d' % turn) + b'/RND!Q~{ESC}'
    if mark == b'@':
        first, last = read_span(rest)
        text = b'+' + rest if first == last else b'@COUNT(' + rest + b')'
        return b'{GOTO}Z%d~' % turn + text + b'~'
    return b'{GOTO}' + typed(rest) + b'{NAME}{BREAK}'


def names(rest):
    """Runs of names, a case each, with all screens; a name that can't be typed stands in a file of its own."""
    case = []
    for line in [*rest, b':']:
        if line == b':' and case:
            yield Run([], b''.join(name_keys(line, turn) for turn, line in enumerate(case, 1)), {})
        if min(line) < 32:
            yield Run(*starting_with(name_file(line[1:].partition(b' ')[2]), b''))
        elif line == b':':
            case = []
        else:
            case.append(line)


# ---------------------------------------------------------------- all of it

OF_LETTER = {b'a': addresses, b'r': references, b'l': labels, b'f': formats, b'c': codes, b'd': dates, b'y': days,
             b't': forms, b'q': found,
             b'e': trees}


def base(r):
    """Runs of all letters, and of names."""
    asked = list(lines(r))
    for letter, of in OF_LETTER.items():
        yield from of([line[1:] for line in asked if line[:1] == letter])
    yield from names([line for line in asked if line[:1] not in OF_LETTER])
