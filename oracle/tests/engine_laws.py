"""Tests of the worksheet's half by what must hold of random sheets, formulas and files."""
import random

from ..model import address, dates, fixed, formula, names, sheet, wk1
from ..model.sheet import Graph, Saved, State
from ..model.values import BLANK, C_BLANK, ERR, NA, num, string
from .engine_frame import Bed, cell, MIL, raises, span

# ---- properties ----

OPS = list(formula.LEVEL)


def random_ref(r, at):
    """A reference to a corner of the sheet or near it."""
    target = (r.choice([0, 1, 2, 255]), r.choice([0, 1, 5, 8191]))
    return address.ref_of(target, at, r.random() < 0.4, r.random() < 0.4)


def random_expr(r, at, size):
    """A random well bracketed tree."""
    if size <= 0 or r.random() < 0.15:
        k = r.randrange(6)
        if k == 0:
            return ('num', r.choice([0, 1, MIL, 32767 * MIL, 32768 * MIL, r.randrange(fixed.LIMIT + 1)]))
        if k == 1:
            return ('str', bytes(r.choice(b'aB ?*\xe9,()') for _ in range(r.randrange(4))))
        if k == 2:
            return ('cell', random_ref(r, at))
        if k == 3:
            return ('span', random_ref(r, at), random_ref(r, at))
        return ('call', r.choice([0x1F, 0x20, 0x33, 0x34, 0x37]), [])
    k = r.randrange(5)
    if k == 0:
        return ('group', random_expr(r, at, size - 1))
    if k in (1, 2):
        which = r.choice(['neg', 'not'])
        inner = random_expr(r, at, size - 1)
        if not formula.front_ok(6 if which == 'neg' else 2, inner):
            inner = ('group', inner)
        return (which, inner)
    if k == 3:
        op = r.choice(OPS)
        left, right = random_expr(r, at, size // 2), random_expr(r, at, size // 2)
        if not formula.left_ok(op, left):
            left = ('group', left)
        if not formula.right_ok(op, right):
            right = ('group', right)
        return ('bin', op, left, right)
    code = r.choice(sorted(formula.FUNCTIONS))
    _, least, most = formula.FUNCTIONS[code]
    n = least if most == least else r.randrange(least, min(most, least + 3) + 1)
    return ('call', code, [random_expr(r, at, (size - 1) // max(n, 1)) for _ in range(n)])


def test_print_read_round_trip():
    """A formula that is printed reads as itself."""
    r = random.Random(1)
    nm = names.Names()
    nm.create(b'alpha', span('B2')); nm.create(b'BETA', span('A1..C6')); nm.create(b'A1',
                                                                                   span('C6')); nm.create(b'a b',
                                                                                                          span('A1'))
    done = 0
    for _ in range(6000):
        at = (r.choice([0, 1, 255]), r.choice([0, 3, 8191]))
        e = random_expr(r, at, r.randrange(12))
        assert formula.well_bracketed(e) and formula.shape_fault(e) is None
        t = formula.print_(e, at, nm)
        assert wk1.read_code(wk1.write_code(e, at)) == e
        if len(t) > 240:
            continue
        assert formula.read(t, at, nm) == e, (t, e, formula.read(t, at, nm))
        done += 1
    assert done > 4000


def test_random_texts():
    """Every text is read or has one named fault; what was read prints and reads again; a fault at a
    place depends on no byte before which the text could go on."""
    r = random.Random(7)
    pieces = [b'1', b'.5', b'1.', b'"a"', b'"', b'A1', b'$B$2', b'A1..B2', b'A1.', b'..', b'@SUM(', b'@ABS', b'(', b')',
              b',', b';', b'@NOW', b'@@(', b'@PI', b'@X', b'#AND#', b'#NOT#', b'#', b'<', b'>', b'=', b'<>', b'+', b'-',
              b'*', b'&', b'^', b' ', b'ONE', b'WIDE', b'NOPE', b'$', b'1000000000', b'%', b'E5', b'@IF(', b'@']
    nm = names.Names(); nm.create(b'ONE', span('B2')); nm.create(b'WIDE', span('B2..C3'))
    good = 0
    for _ in range(30000):
        t = b''.join(r.choice(pieces) for _ in range(r.randrange(9)))
        try:
            e = formula.read(t, (3, 3), nm)
        except formula.ParseFault as f:
            assert 1 <= f.number <= 7 and (f.at is None) == (f.number == 2)
            if f.at is not None:
                assert 0 <= f.at < len(t)
                # up to the place of the fault nothing was wrong but that it ends
                try:
                    formula.read(t[:f.at], (3, 3), nm)
                except formula.ParseFault as g:
                    assert g.number == 2 or b'..' in t or b'A1.' in t, (t, f.number, f.at, g.number)
            continue
        good += 1
        p = formula.print_(e, (3, 3), nm)
        assert formula.read(p, (3, 3), nm) == e and formula.shape_fault(e) is None
    assert good > 300


def test_moves_keep_values():
    """After a move to a free place, or an insert, every formula without a lost reference has its value."""
    r = random.Random(8)
    for _ in range(200):
        b = Bed()
        for _ in range(14):
            c = (r.randrange(4), r.randrange(4))
            other = [(b'$' if r.random() < .3 else b'') + address.cell_text((r.randrange(4), r.randrange(4)))
                     for _ in range(2)]
            line = r.choice([b'+%s*2+%s', b'@SUM(%s..%s)', b'7.5', b'lab', b'@CHOOSE(1,%s,%s)'])
            b.type(address.cell_text(c).decode(), line % tuple(other) if b'%' in line else line)
        b.s.create_name(b'N', span('A1..D4'))
        st = b.s.settings.copy(); st.passes = 50; b.s.set_settings(st)
        b.calc()
        if b.s.circ:
            continue
        old = b.s.snapshot()
        k = r.randrange(3)
        if k == 0:
            b.s.shift(span('A1..D4'), (100, 200)); place = lambda c: (c[0] + 100, c[1] + 200)
            assert b.s.names.find(b'N') == ((100, 200), (103, 203))
        elif k == 1:
            b.s.insert_rows(2, 3); place = lambda c: (c[0], c[1] + (3 if c[1] >= 2 else 0))
            assert b.s.names.find(b'N') == ((0, 0), (3, 6))
        else:
            b.s.insert_columns(0, 252); place = lambda c: (c[0] + 252, c[1])
        b.calc()
        assert {place(c): s.value for c, s in old.cells.items()} == {c: s.value for c, s in b.s.cells.items()}


def all_trees(tokens):
    """All trees, well bracketed or not, that have a list of operand, front and binary tokens."""
    if len(tokens) == 1:
        return [tokens[0][1]] if tokens[0][0] == 'operand' else []
    out = []
    if tokens[0][0] == 'front':
        out += [('neg' if tokens[0][1] == '-' else 'not', t) for t in all_trees(tokens[1:])]
    for i, t in enumerate(tokens):
        if t[0] == 'bin':
            out += [('bin', t[1], a, b) for a in all_trees(tokens[:i]) for b in all_trees(tokens[i + 1:])]
    return out


def test_exactly_one_tree():
    """Each accepted token list spells exactly one tree."""
    r = random.Random(2)
    for _ in range(1500):
        tokens = []
        for i in range(r.randrange(1, 5)):
            if i:
                tokens.append(('bin', r.choice(['^', '*', '+', '=', 'AND', '&'])))
            for _ in range(r.choice([0, 0, 1, 1, 2])):
                tokens.append(('front', r.choice(['-', 'NOT'])))
            tokens.append(('operand', ('num', i * MIL)))
        good = [t for t in all_trees(tokens) if formula.well_bracketed(t)]
        assert len(good) == 1, (tokens, good)
        assert good[0] == formula._Builder(tokens).tree(0)


def random_saved(r):
    """Any sheet as a file holds it."""
    s = Saved()
    for _ in range(r.randrange(25)):
        c = (r.choice([0, 1, 2, 255]), r.choice([0, 1, 2, 3, 8191]))
        fmt = r.choice([0xFF, 0xFF, 0x7F, 0x02, 0x80 | r.randrange(128)])
        k = r.randrange(4)
        if k == 0:
            if fmt != 0xFF:
                s.cells[c] = State(C_BLANK, BLANK, fmt)
        elif k == 1:
            v = r.choice([0, -32768 * MIL, -32769 * MIL, 32767 * MIL, r.randrange(-fixed.LIMIT, fixed.LIMIT + 1),
                          r.randrange(-5 * MIL, 5 * MIL)])
            s.cells[c] = State(('number', v), num(v), fmt)
        elif k == 2:
            t = bytes(r.randrange(32, 256) for _ in range(r.choice([0, 1, 5, 240])))
            s.cells[c] = State(('label', r.choice(b"'\"^\\|"), t), string(t), fmt)
        else:
            v = r.choice([ERR, NA, num(r.randrange(-fixed.LIMIT, fixed.LIMIT + 1)), string(b''), string(b"'x\xff"),
                          num(0)])
            s.cells[c] = State(('formula', random_expr(r, c, r.randrange(8))), v, fmt)
    for _ in range(r.randrange(3)):
        s.widths[r.randrange(256)] = r.randrange(1, 241)
        s.hidden.add(r.randrange(256))
        s.names.create(bytes(r.choice(b'abZ_ 9\xe9') for _ in range(r.randrange(14))).strip() + b'q',
                       address.ordered((r.randrange(256), r.randrange(8192)), (r.randrange(256), r.randrange(8192))))
    t = s.settings
    t.automatic, t.passes, t.prefix = r.random() < 0.5, r.randrange(1, 51), r.choice(b"'\"^")
    t.format, t.width, t.protection = r.randrange(256), r.randrange(1, 241), r.random() < 0.5
    t.pointer, t.order = (r.randrange(256), r.randrange(8192)), r.choice(['natural', 'columnwise', 'rowwise'])
    return s


def test_write_read_round_trip():
    """A sheet that is written reads as itself."""
    r = random.Random(3)
    for _ in range(400):
        s = random_saved(r)
        data = wk1.write(s)
        assert wk1.read(data) == s
        assert wk1.write(wk1.read(data)) == data
        n = r.randrange(len(data))
        f = raises(wk1.Wk1Fault, wk1.read, data[:n])
        assert f.number == (1 if n < 6 else 2)


def test_what_other_programs_read():
    """A formula whose value is a text has the bits that 1-2-3 saves, with a STRING behind it; RANGE ends at the last
    column with a width or a mark of its own, where that lies behind the last used one."""
    name = b'\x06north\0\x03'
    head = b'\xff\x01\0\x02\0'
    formula_body = head + bytes(8) + bytes([len(name), 0]) + name
    cell = b'\x10\0' + bytes([len(formula_body), 0]) + formula_body + b'\x33\0\x0b\0' + head + b'north\0'
    for kind, body, end in ((8, b'\x11\0\x14', 17), (8, b'\0\0\x14', 1), (0x64, bytes(31) + b'\x80', 255)):
        data = bytes.fromhex('000002000604') + bytes([kind, 0, len(body), 0]) + body + cell + bytes.fromhex('01000000')
        saved = wk1.write(wk1.read(data))
        assert saved[6:18] == bytes([6, 0, 8, 0, 0, 0, 0, 0, end, 0, 2, 0])
        kept = bytes.fromhex('ffffffffffff f07f') + bytes([len(name), 0]) + name
        assert kept + bytes.fromhex('33000b00ff01000200') + b'north\0' in saved


def test_random_bytes_in_files():
    """Any damaged file is a sheet or a named fault, and what was read is written and read again."""
    r = random.Random(4)
    for _ in range(1500):
        data = bytearray(wk1.write(random_saved(r)))
        for _ in range(r.randrange(1, 6)):
            data[r.randrange(6, len(data))] = r.choice([0, 1, 2, 3, 4, 5, 6, 8, 9, 0xFF, r.randrange(256)])
        try:
            s = wk1.read(data)
        except wk1.Wk1Fault:
            continue
        for st in s.cells.values():
            assert st.content[0] != 'formula' or formula.shape_fault(st.content[1]) is None
        assert wk1.read(wk1.write(s)) == s


def test_doubles():
    """The bits of numbers, as the host's floating-point unit has them."""
    import struct  # only in this test: the host's doubles against the whole-number bits
    r = random.Random(5)
    for _ in range(3000):
        v = r.choice([r.randrange(-fixed.LIMIT, fixed.LIMIT + 1), r.randrange(-10 ** 7, 10 ** 7), 0, 1, -1,
                      fixed.LIMIT])
        bits = fixed.to_double_bits(v)
        assert fixed.from_double_bits(bits) == v
        assert bits == struct.unpack('<Q', struct.pack('<d', v / 10 ** 6))[0] or v == 0
    assert fixed.from_double_bits(1 << 63) == 0 and fixed.from_double_bits(0x7FF8 << 48) == 'ERR'
    assert fixed.from_double_bits(0xFFF0 << 48) == 'NA' and fixed.from_double_bits(0x7FE0 << 48) == fixed.TOO_LARGE


def test_dates():
    """The calendar."""
    assert dates.civil_of(60) == (1900, 2, 29) and dates.day_of(1900, 2, 29) == 60 and dates.day_of(1900, 2, 30) is None
    for d in range(1, dates.LAST_DAY + 1):
        assert dates.day_of(*dates.civil_of(d)) == d
    assert dates.civil_of(73050) == (2099, 12, 31) and dates.civil_of(0) is None and dates.civil_of(73051) is None
    for s in range(86400):
        assert dates.seconds_of(dates.fraction_of(s)) == s


PLACES = [(c, w) for c in range(3) for w in range(4)]


def walked(g):
    """The natural order by recursion, and whether a circle was met."""
    mark = []

    def walk(path, done, c):
        """The order so far, and a formula behind what it reads."""
        if c in done:
            return done
        if c in path:
            mark.append(c)
            return done
        for d in g.pre[c]:
            done = walk(path + [c], done, d)
        return done + [c]

    done = []
    for f in g.formulas:
        done = walk([], done, f)
    return done, bool(mark)


def reach_themselves(g):
    """The formulas that reach themselves, by definition."""
    own = set()
    for f in g.formulas:
        seen, todo = set(), list(g.pre[f])
        while todo:
            d = todo.pop()
            if d not in seen:
                seen.add(d)
                todo += g.pre[d]
        if f in seen:
            own.add(f)
    return own


def typed_in(r, b, name, other):
    """A formula or another content is typed."""
    many = [lambda: r.choice(['+%s+%s*2', '@SUM(%s..%s)', '@IF(%s>3,%s,1)',
                              '@COUNT(%s,%s)&"x"']) % tuple(other[:2])] * 4
    many += [lambda: r.choice(['@NOW', '@CELLPOINTER("row")', '@@("%s")' % other[0],
                               '@CELL("contents",%s)' % other[0]])]
    many += [lambda: r.choice(['5', 'lab', '-1.5'])] * 2
    b.type(name, r.choice(many)())


def changed_in(r, b, c, other):
    """A command changes the sheet, its order, or what is evaluated."""
    block = span(other[0] + '.' + other[1])
    line = lambda: getattr(b.s, r.choice(['insert_rows', 'delete_rows', 'insert_columns',
                                          'delete_columns']))(r.randrange(3), 1)
    edit = r.choice([lambda: b.s.erase(block), lambda: b.s.copy_span(block, (c, c)), lambda: b.s.shift(block, c), line,
                     None])
    if edit:
        edit()
        b.after()
    else:
        r.choice([lambda: b.s.set_order(r.choice(['natural', 'columnwise', 'rowwise'])), b.calc,
                  lambda: b.s.recalc_span(block, r.random() < 0.5, b.sc(), b.t), lambda: b.s.put_back(b.s.keep())])()


def settled(r, b):
    """A sheet in either mode, of some passes."""
    settings = b.s.settings.copy()
    settings.automatic = r.random() < 0.7
    settings.passes = r.choice([1, 1, 2, 5])
    b.s.set_settings(settings)


def test_walk_against_recursion():
    """The natural order by recursion, and what holds of dirty formulas over random edits (the checks of
    ORACLE_CHECK)."""
    sheet.CHECK = True
    r = random.Random(6)
    for _ in range(150):
        b = Bed()
        settled(r, b)
        for _ in range(25):
            c = r.choice(PLACES)
            other = [address.cell_text(r.choice(PLACES)).decode() for _ in range(3)]
            if r.randrange(12) < 7:
                typed_in(r, b, address.cell_text(c).decode(), other)
            else:
                changed_in(r, b, c, other)
            b.s.check(b.sc())
            g = Graph(b.s.cells)
            assert g.natural() == walked(g)
            assert reach_themselves(g) == g.on_circles()
            assert wk1.read(wk1.write(b.s.snapshot())) == b.s.snapshot()
    sheet.CHECK = False
