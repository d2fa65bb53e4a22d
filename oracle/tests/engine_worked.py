"""Tests of the worksheet's half by worked examples, part by part."""
import itertools
import random

from ..model import address, blocks, cellformat, fixed, formula, names, query, report, wk1
from ..model.address import read_cell, read_span
from ..model.dates import Moment
from ..model.evaluate import glance, label_condition
from ..model.sheet import Saved, Sheet, SheetFault, State
from ..model.values import BLANK, C_BLANK, ERR, NA, num, string, value_content
from .engine_frame import Bed, cell, fault_of, MIL, N, NAMES, NOWHERE, raises, scene, span, value_of



# ---- worked examples ----

def test_values_and_texts():
    """Operators, functions and texts of single values."""
    b = Bed()
    for line, want, shown in (('+1/3', 333333, b'0.333333 '), ('+2/3', 666667, b'0.666667 '),
                              ('-1/2*0.000001', -1, None)):
        assert b.type('A1', line) is None
        assert b.v('A1') == num(want), (line, b.v('A1'))
        if shown:
            assert cellformat.show_number(want, 0x71, 9) == shown
    b.type('A1', '+999999999.999999+0.000001')
    assert b.v('A1') == ERR
    b = Bed()
    f = b.type('A1', '1000000000')
    assert (f.number, f.at) == (6, 0) and b.v('A1') == BLANK
    assert fault_of('+1000000000') == (6, 1)
    # pointers, and the order of evaluation
    b = Bed()
    b.type('A1', '+A1+1'); b.calc(); b.calc()
    assert b.v('A1') == N(3) and b.s.circ and b.t.count == 3
    # circles
    b = Bed()
    b.type('A1', '+B1+1'); b.type('B1', '+A1+1')
    assert (b.v('A1'), b.v('B1')) == (N(3), N(2))
    b.calc()
    assert (b.v('A1'), b.v('B1')) == (N(5), N(4)) and b.t.count == 5
    assert b.s.graph().natural()[0] == [cell('B1'), cell('A1')]
    # the evaluations are 0, 1, 0, 1, 1
    b = Bed()
    works = []
    for where, line in (('A1', '5'), ('A2', '+A1'), ('B1', '7'), ('B2', '+B1'), ('A1', '6')):
        before = b.t.count
        b.type(where, line)
        works.append(b.t.count - before)
    assert works == [0, 1, 0, 1, 1] and b.t.count == 3
    for line, want in (('@DATE(0,2,29)', N(60)), ('@DATE(0,3,1)', N(61)), ('@DATE(87,6,1)', N(31929)),
                       ('@DATE(199,12,31)', N(73050)), ('@DATE(200,1,1)', ERR)):
        assert value_of(line) == want, line


def test_criteria():
    """What records match a criterion."""
    b = Bed()
    b.type('A1', '+B1')
    b.s.copy_span(span('A1'), span('IV8192')); b.after()
    assert b.text('IV8192') == '+A8192'
    b = Bed()
    b.type('B1', '+A1'); b.type('D1', '+C1')
    b.s.shift(span('A1'), cell('C1')); b.after()
    assert b.text('B1') == '+C1' and b.text('D1') == '@ERR' and b.v('D1') == ERR


EMPTY = bytes.fromhex('00000200060401000000')


def rec(kind, body):
    """A record of a worksheet file."""
    return wk1._record(kind, body)


def with_record(kind, body):
    """An empty file with one more record."""
    return EMPTY[:6] + rec(kind, body) + EMPTY[6:]


def fault_of_file(data):
    """The fault with which a file is refused."""
    f = raises(wk1.Wk1Fault, wk1.read, data)
    return f.text()


def formula_record(code, at=(0, 0), value=bytes(8)):
    """The record of a formula's code in a cell."""
    body = b'\xFF' + wk1._u16s(*at) + value + wk1._u16s(len(code)) + code
    return with_record(0x10, body)


def test_file_records():
    """What each record of a file says, and its faults."""
    assert wk1.read(EMPTY) == Saved()
    for n in range(0, 6):
        assert fault_of_file(EMPTY[:n]) == 'F1'
    for n in range(6, 10):
        assert fault_of_file(EMPTY[:n]) == 'F2 6'
    assert fault_of_file(bytes.fromhex('000002000704010000 00'.replace(' ', ''))) == 'F1'
    bits = int.from_bytes(bytes.fromhex('9A9999999999B93F'), 'little')
    assert fixed.from_double_bits(bits) == 100000 and fixed.to_double_bits(100000) == bits
    s = wk1.read(with_record(0x0E, b'\xFF' + wk1._u16s(0, 0) + bits.to_bytes(8, 'little')))
    assert s.cells[(0, 0)].content == ('number', 100000)
    assert bytes.fromhex('9A9999999999B93F') in wk1.write(s)
    assert fault_of_file(formula_record(bytes.fromhex('0501000501000501003803'))) == 'F8 1 38'
    assert fault_of('@PMT(1,1,1)') == (4, 0)
    # damaged records
    b = Bed(); b.type('A1', '5'); b.type('A2', '+A1*2')
    want = bytes.fromhex('10001900FF000001000000000000002440 0A0001008 0FFBF0502000B03'.replace(' ', ''))
    assert want in wk1.write(b.s.snapshot())
    # refusals
    assert fault_of_file(bytes.fromhex('000002000604 0F00FFFF41'.replace(' ', ''))) == 'F2 6'
    wk1.read(formula_record(b'\x05\x01\x00' + b'\x08' * 255 + b'\x03'))
    assert fault_of_file(formula_record(b'\x05\x01\x00' + b'\x08' * 256 + b'\x03')) == 'F12 1'
    assert fault_of_file(formula_record(b'\x09\x03')) == 'F7 1 0'
    assert fault_of_file(with_record(0x0F, b'\xFF' + wk1._u16s(256, 0) + b"'A\0")) == 'F4 1'
    assert fault_of_file(with_record(0x0E, b'\xFF' + wk1._u16s(0, 0) + bytes.fromhex('0000000065CDCD41'))) == 'F6 1'
    assert fault_of_file(bytes(67_108_865)) == 'F11'
    # hidden columns
    for version in ('0504', '0404'):
        assert wk1.read(bytes.fromhex('00000200' + version + '01000000')) == Saved()
    assert fault_of_file(bytes.fromhex('0000020003040 1000000'.replace(' ', ''))) == 'F1'
    assert fault_of_file(with_record(0x64, bytes(31))) == 'F3 1'
    s = Saved(); s.hidden = {1, 8, 255}
    assert wk1.read(wk1.write(s)) == s
    # a file without EOF
    whole = wk1.write(Saved())
    assert fault_of_file(whole[:-4]) == 'F2 %d' % (len(whole) - 4)


def test_code_reading():
    """The codes of formulas, and their faults."""
    # a reader puts brackets only where well-bracketing would break
    e = wk1.read_code(bytes.fromhex('050100' '050200' '09' '050300' '0B' '03'))
    assert formula.print_(e, (0, 0), NAMES) == b'(1+2)*3'
    e = wk1.read_code(bytes.fromhex('050100' '050200' '050300' '0A' '0A' '03'))
    assert formula.print_(e, (0, 0), NAMES) == b'1-(2-3)'
    e = wk1.read_code(bytes.fromhex('05FFFF' '050200' '0D' '03'))
    assert formula.print_(e, (0, 0), NAMES) == b'(-1)^2'
    e = wk1.read_code(bytes.fromhex('050100' '17' '03'))
    assert e == ('num', MIL)
    e = wk1.read_code(bytes.fromhex('00000000000000F07F' '03'))
    assert e == ('call', 0x20, [])
    e = wk1.read_code(bytes.fromhex('00000000000000F0FF' '03'))
    assert e == ('call', 0x1F, [])
    for code, kind, at in (('', 'Bad', 0), ('0501', 'Bad', 0), ('050100', 'Bad', 3), ('05010005010003', 'Bad', 6),
                           ('0100010000 03', 'Bad', 0), ('0641220003', 'Bad', 0), ('06411F0003', 'Bad', 0),
                           ('050100500003', 'Bad', 3), ('0501005001 03', None, 0), ('0501003001 03', 'Bad', 3),
                           ('7A', 'Bad', 0), ('38', 'Outside', 0x38), ('050100' '7A' '38', 'Bad', 3)):
        data = bytes.fromhex(code.replace(' ', ''))
        if kind is None:
            wk1.read_code(data)
            continue
        f = raises(wk1.CodeFault, wk1.read_code, data)
        assert f.kind == kind and f.payload == at, (code, f.kind, f.payload)
    big = b'\x06' + b'x' * 240 + b'\0'
    joined = big * 271 + b'\x18' * 270 + b'\x03'
    f = raises(wk1.CodeFault, wk1.read_code, joined)
    assert (f.kind, f.payload) == ('Bad', len(joined) - 1)


def test_code_brackets():
    """Codes of trees that aren't well bracketed: the reader's brackets keep the meaning, stand only
    where the rule asks for one, and what was read is a fixed point."""
    r = random.Random(9)

    def raw(size):
        if size <= 0:
            return ('num', r.randrange(4) * MIL)
        k = r.randrange(6)
        if k == 0:
            return ('neg', raw(size - 1))
        if k == 1:
            return ('not', raw(size - 1))
        if k == 2:
            return ('group', raw(size - 1))
        return ('bin', r.choice(list(formula.LEVEL)), raw(size // 2), raw(size // 2))

    def put(e):
        """The file format's rule, written on trees."""
        if e[0] == 'bin':
            a, b = put(e[2]), put(e[3])
            a = a if formula.left_ok(e[1], a) else ('group', a)
            b = b if formula.right_ok(e[1], b) else ('group', b)
            return ('bin', e[1], a, b)
        if e[0] in ('neg', 'not'):
            a = put(e[1])
            return (e[0], a if formula.front_ok(formula.level((e[0], a)), a) else ('group', a))
        return ('group', put(e[1])) if e[0] == 'group' else e

    for _ in range(3000):
        e = raw(r.randrange(9))
        got = wk1.read_code(wk1._write_tree(e, (0, 0)) + b'\x03')
        assert got == put(e) and formula.well_bracketed(got)
        assert glance(got, (0, 0), Sheet(), scene()) == glance(e, (0, 0), Sheet(), scene())
        assert wk1.read_code(wk1.write_code(got, (0, 0))) == got


def test_refusals():
    """S3 before S1 before S2, with their cells and spans; a refused edit changes nothing."""
    b = Bed(); b.type('B2', '1'); b.type('A8192', 'x')
    st = b.s.settings.copy(); st.protection = True; b.s.set_settings(st)
    b.s.set_protected(span('B2..C3'), False)
    before = b.s.snapshot()

    def refused(kind, payload, call, *args):
        f = raises(SheetFault, call, *args)
        assert (f.kind, f.payload) == (kind, payload), (f.kind, f.payload)
        assert b.s.snapshot() == before

    refused('OutOfSheet', span('B2..C3'), b.s.copy_span, span('B2..C3'), span('IV1'))
    refused('OutOfSheet', span('B2..B3'), b.s.transpose, span('B2..B3'), cell('IV1'))
    refused('OutOfSheet', span('B2..B3'), b.s.value_span, span('B2..B3'), cell('A8192'))
    refused('OutOfSheet', span('B2..B3'), b.s.shift, span('B2..B3'), cell('A8192'))
    refused('Protected', cell('D2'), b.s.shift, span('B2..C2'), cell('C2'))
    refused('Protected', cell('A1'), b.s.shift, span('A1'), cell('B2'))
    refused('Protected', cell('A2'), b.s.erase, span('A2..C3'))
    refused('Protected', cell('D2'), b.s.write, [(cell('A3'), C_BLANK, None), (cell('D2'), C_BLANK, None),
                                                 (cell('B2'), C_BLANK, None)])
    refused('Protected', (0, 5), b.s.insert_rows, 5, 1)
    refused('Protected', (5, 0), b.s.delete_columns, 5, 1)
    b.s.shift(span('B2..B3'), cell('C2'))
    assert b.v('C2') == N(1) and b.s.format(cell('C2')) == 0x7F and cell('B2') not in b.s.cells
    # one source column across, one source row down
    b = Bed(); b.type('A1', '1'); b.type('A2', '2'); b.s.copy_span(span('A1..A2'), span('C1..D9'))
    assert sorted(b.s.cells, key=address.row_order) == [cell(c) for c in ('A1', 'C1', 'D1', 'A2', 'C2', 'D2')]


def test_reports():
    """Pages, headers and borders of reports."""
    b = Bed()
    for i in range(1, 6):
        b.type('A%d' % i, str(i)); b.type('C%d' % i, 'L%d' % i)
    set_ = report.PrintSettings(header=b'|#', left=0, right=18, top=0, bottom=0, length=8)
    out = report.report(span('A1..C5'), set_, b.s.snapshot(), NOWHERE).split(b'\r\n')
    # two bands of at most 18, three pages of two rows in each; each page is 8 lines
    assert len(out) == 49 and out[0] == b' ' * 8 + b'1' and out[8] == b' ' * 8 + b'2'
    assert out[3] == b' ' * 7 + b'1' and out[4] == b' ' * 7 + b'2'
    assert out[24 + 3] == b'L1' and out[24] == b' ' * 8 + b'4'
    assert out[40 + 3] == b'L5' and out[40 + 4] == b''


class SheetBench:
    """A bench over a sheet, as the commands of tables make one."""

    def __init__(self, bed):
        self.b = bed
        self.old = {}

    def try_input(self, c, v):
        """Enters a value, and keeps what the cell held."""
        try:
            s = self.b.s.state(c)
            self.old.setdefault(c, s.content)
            self.b.s.enter(c, value_content(v))
        except SheetFault as f:
            raise blocks.BlockFault('Sheet', f)
        self.b.s.calc(self.b.sc(), self.b.t)

    def answer(self, c):
        """The value of a cell."""
        return self.b.s.value_of(c)

    def give_back(self):
        """Writes back what the inputs held."""
        self.b.s.write([(c, k, None) for c, k in self.old.items()])
        self.b.s.calc(self.b.sc(), self.b.t)


def test_data_tables():
    """Tables of one and of two inputs."""
    b = Bed()
    for i in (1, 2, 3):
        b.type('E%d' % (i + 1), str(i))
    b.type('F1', '+C1*2+F2')
    w = blocks.table_one(span('E1.F4'), cell('C1'), SheetBench(b))
    b.s.write(w); b.calc()
    assert [b.v('F%d' % i) for i in (2, 3, 4)] == [N(2), N(4), N(6)]
    assert b.v('C1') == BLANK and b.v('F1') == N(2)
    # no cell takes the input
    f = raises(blocks.BlockFault, blocks.table_one, span('A1.B3'), cell('A2'), SheetBench(b))
    assert f.kind == 'InputInTable' and f.payload == cell('A2')
    assert raises(blocks.BlockFault, blocks.table_one, span('A1.A3'), cell('A2'), None).kind == 'NoTable'
    # a table of two inputs
    b = Bed()
    b.type('A1', '+E1*10+E2'); b.type('A2', '1'); b.type('A3', '2'); b.type('B1', '5'); b.type('C1', '6')
    b.s.write(blocks.table_two(span('A1.C3'), cell('E1'), cell('E2'), SheetBench(b))); b.calc()
    assert [b.v(c) for c in ('B2', 'C2', 'B3', 'C3')] == [N(15), N(16), N(25), N(26)]


def test_moves_in_a_sheet():
    """Moves, inserts and deletes, and what follows them."""
    b = Bed()
    for c, t in zip('ABCD', ('MONTH', 'IN', 'OUT', 'NET')):
        b.type(c + '1', t)
    for m in range(1, 13):
        r = m + 1
        b.type('A%d' % r, '@DATE(87,%d,1)' % m)
        b.type('B%d' % r, '1000')
        b.type('C%d' % r, str(900 + 10 * (m - 1)))
        b.type('D%d' % r, '+B%d-C%d' % (r, r))
    b.s.set_format(span('A2..A13'), 0x74)
    b.type('D14', '@SUM(D2..D13)')
    b.s.create_name(b'YEAR', span('D14'))
    b.type('F1', '@VLOOKUP(@DATE(87,6,15),A2..D13,3)')
    b.type('H1', 'NET'); b.type('H2', '+D2<0'); b.type('J1', 'MONTH')
    w = query.extract(span('A1..D13'), span('H1..H2'), span('J1..J5'), False, b.s, b.sc())
    b.s.write(w); b.after()
    assert b.v('D14') == N(540) and b.v('F1') == N(50) and b.v('J2') == N(32112)
    assert b.v('J3') == BLANK and b.s.format(cell('J2')) == 0x80 | 0x74
    assert cellformat.show_number(32112 * MIL, 0x74, 9) == b'  Dec-87 '
    saved = b.s.snapshot()
    back = wk1.read(wk1.write(saved))
    assert back == saved
    b2 = Bed(Sheet.restore(back)); b2.calc()
    assert b2.s.cells == b.s.cells


def generated(rows):
    """The generated sheet: 37*r modulo 101 in A, +Ar*3 in B, in C +B1, and the cell above plus B."""
    saved = Saved()
    for r in range(1, rows + 1):
        v = 37 * r % 101 * MIL
        saved.cells[(0, r - 1)] = State(('number', v), num(v), 0xFF)
        at = (1, r - 1)
        saved.cells[at] = State(('formula', formula.read(b'+A%d*3' % r, at, NAMES)), num(0), 0xFF)
        at = (2, r - 1)
        t = b'+B1' if r == 1 else b'+C%d+B%d' % (r - 1, r)
        saved.cells[at] = State(('formula', formula.read(t, at, NAMES)), num(0), 0xFF)
    return saved


def test_generated_sheet():
    """The worksheet that --gen begins with."""
    b = Bed(Sheet.restore(generated(8000)))
    b.calc()
    assert b.v('C8000') == N(1200069) and b.t.count == 16000
    b.type('A1', '5')
    assert b.v('C8000') == N(1199973) and b.t.count == 24001
    b = Bed(Sheet.restore(generated(1))); b.calc()
    assert b.v('C1') == N(111)


def test_records():
    """Edits that are refused leave the sheet as it was."""
    b = Bed(); b.type('A1', '1')
    st = b.s.settings.copy(); st.protection = True; b.s.set_settings(st)
    f = raises(SheetFault, b.s.enter, cell('A1'), ('number', 2 * MIL))
    assert (f.kind, f.payload) == ('Protected', cell('A1')) and b.v('A1') == N(1)
    b = Bed(); b.type('A1', '1'); b.type('A8192', '2')
    before = b.s.snapshot()
    f = raises(SheetFault, b.s.insert_rows, 0, 1)
    assert (f.kind, f.payload) == ('PushedOff', cell('A8192')) and b.s.snapshot() == before


def test_orders_and_spans():
    """Fills, sorts and distributions."""
    assert raises(blocks.BlockFault, blocks.fill, span('A1.A3'), MIL, 0, 9 * MIL).kind == 'ZeroStep'
    b = Bed(); b.type('A3', '8')
    b.s.write(blocks.fill(span('A1.A3'), MIL, 2 * MIL, 4 * MIL)); b.after()
    assert [b.v(c) for c in ('A1', 'A2', 'A3')] == [N(1), N(3), N(8)]
    b = Bed()
    for c, v in (('A1', '3'), ('A2', '1'), ('A3', '2'), ('B1', '2')):
        b.type(c, v)
    b.s.write(blocks.sort_rows(span('A1.A3'), [(0, False)], b.s)); b.after()
    assert [b.v(c) for c in ('A1', 'A2', 'A3')] == [N(1), N(2), N(3)]
    b.s.write(blocks.distribution(span('A1.A3'), span('B1'), b.s)); b.after()
    assert b.v('C1') == N(2) and b.v('C2') == N(1)
    # stable, descending, kinds
    order = [BLANK, num(-1), num(0), string(b'A'), string(b'a'), string(b'b'), NA, ERR]
    for i, j in itertools.product(range(len(order)), repeat=2):
        assert blocks.compare(order[i], order[j]) == (i > j) - (i < j), (order[i], order[j])


# ---- worked examples, part by part ----

def test_decimals_table():
    """Numbers in each format and width."""
    for v, f, w, want in ((1234500000, 0x42, 10, b' 1,234.50 '), (-5 * MIL, 0x22, 9, b' ($5.00) '),
                          (125000, 0x31, 9, b'   12.5% '), (31929 * MIL, 0x72, 10, b'01-Jun-87 '),
                          (31929 * MIL, 0x72, 9, b'*' * 9)):
        assert cellformat.show_number(v, f, w) == want, (v, hex(f), w, cellformat.show_number(v, f, w))
    assert cellformat.show_label(0x5E, b'AB', 7) == b'  AB   '
    assert cellformat.show_label(0x22, b'AB', 5) == b'  AB '
    assert cellformat.show_label(0x22, b'ABCDE', 5) == b'ABCDE'
    assert cellformat.show_label(0x5C, b'-=', 5) == b'-=-=-'
    assert cellformat.show_label(0x27, b'A\xe9B', 5) == b'A?B  '
    for f, want in ((0x02, b'(F2)'), (0x92, b'(S2)'), (0x22, b'(C2)'), (0x32, b'(P2)'), (0x42, b'(,2)'),
                    (0x70, b'(+)'), (0x71, b'(G)'), (0x72, b'(D1)'), (0x74, b'(D3)'), (0x75, b'(T)'),
                    (0x76, b'(H)'), (0xFF, b''), (0x77, b'(?)'), (0x50, b'(?)')):
        assert cellformat.indicator(f) == want
    assert cellformat.show_number(-1, 0x00, 9) == b'       0 '
    assert cellformat.show_number(1, 0x0F, 20) == b'  0.000001000000000 '
    assert cellformat.show_number(123456789123456, 0x71, 10) == b'123456789 '
    assert cellformat.show_number(123456789123456, 0x71, 9) == b'*********'
    assert cellformat.show_number(1333333, 0x71, 5) == b'1.33 '


def test_formulas_table():
    """Formulas as they are printed, and the values of some."""
    b = Bed(); b.type('A1', '1'); b.type('A2', 'lab')
    for line, want in (('2^3^2', N(64)), ('-2^2', N(-4)), ('#NOT#0#AND#1', N(1)), ('@SUM(A1..A3)', N(1)),
                       ('@AVG(A1..A3)', N('0.5')), ('@IF(@ISERR(1/0),7,8)', N(7)), ('+"a"="A"', N(1)),
                       ('@COUNT(A1..A3)', N(2)), ('@COUNT(A1,A2,A3)', N(3)), ('@SUM(A1,"x")', ERR),
                       ('@SUM((A1..A3))', ERR), ('@SUM((A2))', ERR), ('@SUM((A1))', N(1)), ('@MIN(A3..A4)', ERR),
                       ('@AVG(A3..A4)', ERR), ('@SUM(A3..A4)', N(0)), ('@COUNT(A3..A4)', N(0)), ('@ERR+@NA', ERR),
                       ('@NA+@ERR', ERR), ('@NA+"a"', NA), ('A1..A3+1', ERR), ('+"a"+1', ERR),
                       ('+A3&"x"', string(b'x')), ('1&"x"', ERR), ('1<"a"', N(1)), ('A3="a"', N(0)), ('A3=0', N(1)),
                       ('@ISNA(@NA)', N(1)), ('@ISERR(@NA)', N(0)), ('@ISNUMBER(@ERR)', N(1)), ('@ISSTRING("")', N(1)),
                       ('@CHOOSE(1,@ERR,5)', N(5)), ('@CHOOSE(2,1,2)', ERR), ('@CHOOSE(-0.5,3,2)', N(3)),
                       ('@COLS(A1..C2)', N(3)), ('@ROWS((A1..C2))', ERR), ('@ROWS(A1)', N(1)),
                       ('@INDEX(A1..A3,0,1)', string(b'lab')), ('@INDEX(A1..A3,1,0)', ERR), ('@@("a1")', N(1)),
                       ('@@("zz")', ERR), ('@CELL("address",A2)', string(b'$A$2')), ('@CELL("TYPE",A2)', string(b'l')),
                       ('@CELL("prefix",A2)', string(b"'")), ('@CELL("format",A2)', string(b'')),
                       ('@CELL("width",A2)', N(9)), ('@CELL("protect",A2)', N(1)), ('@CELL("contents",A3)', N(0)),
                       ('@CELL("x",A3)', ERR), ('@CELLPOINTER("row")', N(1)), ('2^-1', N('0.5')), ('0^0', N(1)),
                       ('0^-1', ERR), ('2^0.5', ERR), ('1^1001', ERR), ('@MOD(-7,3)', N(-1)), ('@MOD(7,-3)', N(1)),
                       ('@MOD(1,0)', ERR), ('@INT(-1.5)', N(-1)), ('@ROUND(1.25,1)', N('1.3')),
                       ('@ROUND(-15,-1)', N(-20)), ('@ROUND(5,-16)', ERR), ('@MID("abcdef",1,3)', string(b'bcd')),
                       ('@REPLACE("abc",1,1,"xy")', string(b'axyc')), ('@REPEAT("ab",2)', string(b'abab')),
                       ('@STRING(2.5,0)', string(b'3')), ('@CHAR(65)', string(b'A')),
                       ('@DATEVALUE("1-jun-87")', N(31929)), ('@DATEVALUE("6/1/87")', N(31929)),
                       ('@TIMEVALUE("12:00")', N('0.5')), ('@HOUR(0.5)', N(12)), ('@TIME(0,0,27)', N('0.000313')),
                       ('@SECOND(@TIME(0,0,27))', N(27)), ('@HOUR(-1)', ERR), ('@YEAR(31929)', N(87)),
                       ('@VALUE(" 1.5 ")', N('1.5')), ('@VALUE("")', N(0)), ('@LENGTH(A3)', ERR),
                       ('@EXACT("a","A")', N(0)), ('@NOW', ERR), ('@FIND("b","abcb",2)', N(3)),
                       ('@PROPER("ab cD")', string(b'Ab Cd')), ('@TRIM("  a  b ")', string(b'a b'))):
        assert value_of(line, b) == want, (line, value_of(line, b), want)


def test_lookups_table():
    """Lookups in columns and rows, and the moment."""
    b = Bed()
    for i, (x, y) in enumerate((('1', '10'), ('lab', '20'), ('3', '30'), ('@ERR', '40'), ('0', '50')), 1):
        b.type('A%d' % i, x); b.type('B%d' % i, y)
    for line, want in (('@VLOOKUP(2,A1..B5,1)', N(20)), ('@VLOOKUP(9,A1..B5,1)', N(30)), ('@VLOOKUP(0,A1..B5,1)', ERR),
                       ('@VLOOKUP("LAB",A1..B5,1)', N(20)), ('@VLOOKUP("LAB",A1..B5,0)', N(1)),
                       ('@VLOOKUP("x",A1..B5,1)', ERR), ('@VLOOKUP(9,A1..B5,2)', ERR), ('@VLOOKUP(9,A1..B5,0)', N(3)),
                       ('@HLOOKUP(1,A1..B2,1)', string(b'lab')), ('@VLOOKUP(@NA,5,1)', ERR),
                       ('@VLOOKUP(@NA,A1..B2,1)', NA), ('@VLOOKUP(1,(A1),0)', ERR), ('@VLOOKUP(1,A1,0)', N(1))):
        assert value_of(line, b) == want, (line, value_of(line, b), want)
    day = Moment(31929, 43200)
    assert glance(formula.read(b'@NOW', (0, 0), NAMES), (0, 0), Sheet(), scene(now=day)) == N('31929.5')


def test_deep_trees():
    """Formulas of the most levels, and of one more."""
    nest = lambda code, n, last=b'': b'\x01\x00\x80\x00\x80' + code * n + b'\x03'
    for code in (b'\x21', b'\x08', b'\x04', b'\x50\x01', b'\x31'):
        saved = wk1.read(formula_record(nest(code, 255), (1, 1)))
        b = Bed(Sheet.restore(saved)); b.calc(); b.s.text_of((1, 1))
        assert wk1.read(wk1.write(b.s.snapshot())) == b.s.snapshot()
        assert fault_of_file(formula_record(nest(code, 256))) == 'F12 1'
    assert fault_of_file(formula_record(b'\x05\x01\x00' + b'\x08' * 65500 + b'\x03')) == 'F12 1'
    assert fault_of_file(formula_record(b'\x05\x01\x00' + b'\x08' * 65514)) == 'F7 1 65517'
    # written with more than 65,520 bytes: F7 at its 03
    assert fault_of_file(formula_record(b'\x05\x01\x00' + b'\x08' * 65516 + b'\x03')) == 'F12 1'
    f = raises(wk1.CodeFault, wk1.read_code, b'\x05\x01\x00' + b'\x08' * 65517 + b'\x03')
    assert (f.kind, f.payload) == ('Bad', 65520)
    many = b'\x05\x00\x80' + b'\x05\x00\x80\x09' * 8000 + b'\x03'  # -32768 is written with 10 bytes
    assert fault_of_file(formula_record(many)) == 'F7 1 32003'
    # a left chain of a thousand sums is deep, and so is a right chain in brackets
    assert fault_of_file(formula_record(b'\x05\x01\x00' + b'\x05\x01\x00\x09' * 256 + b'\x03')) == 'F12 1'
    wk1.read(formula_record(b'\x05\x01\x00' + b'\x05\x01\x00\x09' * 255 + b'\x03'))


def test_sheet_edits():
    """What edits leave, and why they are refused."""
    b = Bed(); b.type('A1', '+A3')
    b.s.insert_rows(1, 1); b.after()
    assert b.text('A1') == '+A4'
    b.s.delete_rows(3, 1); b.after()
    assert b.text('A1') == '@ERR'
    b = Bed(); b.type('A1', '3'); b.s.value_span(span('A1'), cell('B1')); b.after()
    assert b.s.content(cell('B1')) == ('number', 3 * MIL)
    b = Bed(); b.type('A1', '1'); b.type('A2', '2'); b.s.transpose(span('A1.A2'), cell('C1')); b.after()
    assert b.v('C1') == N(1) and b.v('D1') == N(2)
    b = Bed(); b.type('A1', '7'); b.s.create_name(b'rate', span('A1')); b.type('A2', '+RATE*2')
    assert b.v('A2') == N(14) and b.text('A2') == '+RATE*2'
    b.s.delete_name(b'RATE')
    assert b.text('A2') == '+A1*2'
    assert raises(names.NameFault, b.s.delete_name, b'X').kind == 'Absent'
    assert raises(names.NameFault, b.s.create_name, b'', span('A1')).kind == 'Empty'
    assert raises(names.NameFault, b.s.create_name, b' A', span('A1')).at == 0
    assert raises(names.NameFault, b.s.create_name, b'A' * 16, span('A1')).kind == 'TooLong'


def test_files_and_blocks():
    """Sheets that are saved and read, and blocks that are copied."""
    b = Bed(); b.type('A1', '+A1+1')
    saved = wk1.write(b.s.snapshot())
    assert wk1.read(saved).cells[(0, 0)].value == N(1)
    b.calc(); assert b.v('A1') == N(2)
    b = Bed(Sheet.restore(wk1.read(saved))); b.calc()
    assert b.v('A1') == N(2)
    b = Bed()
    for c, t in (('A1', 'N'), ('A2', '1'), ('A3', '2'), ('A4', '3'), ('C1', 'N'), ('C2', '+A2>1'), ('E1', 'N')):
        b.type(c, t)
    b.s.write(query.extract(span('A1.A4'), span('C1.C2'), span('E1.E4'), False, b.s, b.sc())); b.after()
    assert [b.v(c) for c in ('E2', 'E3', 'E4')] == [N(2), N(3), BLANK]
    f = raises(query.QueryFault, query.extract, span('A1.A4'), span('C1.C2'), span('E1..E2'), False, b.s, b.sc())
    assert (f.kind, f.payload) == ('OutputFull', 2)
    assert value_of('@DSUM(A1..A4,0,C1..C2)', b) == N(5)
    assert value_of('@DCOUNT(A1..A4,0,C1..C2)', b) == N(2) and value_of('@DMAX(A1..A4,1,C1..C2)', b) == ERR
    b.type('C2', 'x*')
    assert value_of('@DSUM(A1..A4,0,C1..C2)', b) == N(0)
    b.type('C1', 'Q')
    assert value_of('@DSUM(A1..A4,0,C1..C2)', b) == ERR
    f = raises(query.QueryFault, query.select, span('A1.A4'), span('C1.C2'), b.s, b.sc())
    assert (f.kind, f.payload) == ('FieldAbsent', cell('C1'))
    assert raises(query.QueryFault, query.select, span('A2.A4'), span('C1.C2'), b.s, b.sc()).kind == 'NoFieldRow'
    for p, t, want in ((b'a?c', b'ABC', True), (b'a*', b'a', True), (b'a?', b'a', False), (b'~a*', b'b', True),
                       (b'', b'', True)):
        assert label_condition(p, string(t)) == want


def test_owners_of_spans():
    """Which cells own the spans that hold a cell."""
    owners = {cell('B2'): [span('A1..C9'), span('A1..A1')], cell('A2'): [span('A1..A1')]}

    def owners_of(c):
        return sorted((o for o, spans in owners.items() if any(address.in_span(c, s) for s in spans)),
                      key=address.row_order)
    assert owners_of(cell('A1')) == [cell('A2'), cell('B2')]
    del owners[cell('B2')]
    assert owners_of(cell('A1')) == [cell('A2')] and owners_of(cell('D1')) == []


def test_recalculation():
    """Which formulas are dirty, and how many evaluations there were."""
    b = Bed(); st = b.s.settings.copy(); st.automatic = False; b.s.set_settings(st)
    b.type('A1', '+B1'); b.type('B1', '2'); b.calc()
    assert b.v('A1') == N(2) and b.t.count == 2
    b = Bed(); st = b.s.settings.copy(); st.passes = 3; b.s.set_settings(st)
    b.type('A1', '@NOW')
    assert b.t.count == 3
    b = Bed(); st = b.s.settings.copy(); st.automatic = False; st.passes = 3; b.s.set_settings(st)
    b.type('A1', '+A1+1')
    assert b.v('A1') == N(1)
    b.calc()
    assert b.v('A1') == N(4)


def test_orders():
    """The three orders of recalculation."""
    b = Bed()
    b.type('A1', '+B1+1'); b.type('B1', '+C1+1'); b.s.set_order('rowwise'); b.type('C1', '5')
    assert (b.v('A1'), b.v('B1')) == (N(2), N(6)), (b.v('A1'), b.v('B1'))
    b.calc()
    assert (b.v('A1'), b.v('B1')) == (N(7), N(6)) and b.t.count == 7
    b = Bed(); st = b.s.settings.copy(); st.automatic = False; b.s.set_settings(st)
    b.type('B1', '5'); b.type('A1', '+B1*2'); b.type('B1', '7'); b.type('D1', '{RECALC A1}')
    b.s.recalc_span(span('A1'), False, b.sc(), b.t)
    assert b.v('A1') == N(14) and b.s.stale and b.t.count == 2
    b = Bed(); b.type('A1', '+A1+1'); b.s.set_order('columnwise'); b.calc()
    assert b.v('A1') == N(2) and not b.s.circ
    for order, byte in (('natural', 0), ('columnwise', 1), ('rowwise', 0xFF)):
        s = Saved(); s.settings.order = order
        data = wk1.write(s)
        assert bytes([3, 0, 1, 0, byte]) in data and wk1.read(data) == s
    # undo
    b = Bed(); b.type('A1', '1'); b.type('B1', '+A1'); kept = b.s.keep(); b.type('A1',
                                                                                 '2'); b.s.put_back(kept); b.calc()
    assert (b.v('A1'), b.v('B1'), b.t.count) == (N(1), N(1), 3)


def test_report_pages():
    """Pages by their length and margins."""
    b = Bed(); b.type('A1', '5')
    out = report.report(span('A1'), report.PrintSettings(), b.s.snapshot(), NOWHERE)
    lines = out.split(b'\r\n')
    assert len(out) == 144 and len(lines) == 67 and lines[5] == b' ' * 11 + b'5'
    assert raises(report.PrintFault, report.report, span('A1'), report.PrintSettings(length=10, top=10), b.s.snapshot(),
                  NOWHERE).kind == 'PageTooSmall'
    assert report.running_line(b'a|#|@', 20, 3, Moment(31929, 0)) == b'a        3 01-Jun-87'
    b.s.set_hidden(0, 0, True)
    assert report.report(span('A1'), report.PrintSettings(), b.s.snapshot(), NOWHERE) == b''
    b = Bed(); b.type('A1', 'A long label that runs'); b.type('C1', '1')
    line = report.row_line(b.s.snapshot(), [0, 1, 2], [9, 9, 9], 0)
    assert line == b'A long label that        1 ', line


def test_parse_faults():
    """The faults of formula texts, with their places."""
    nm = names.Names(); nm.create(b'ONE', span('B2')); nm.create(b'WIDE', span('B2..C3'))
    for line, want in (('', (2, None)), ('+', (2, None)), ('1+', (2, None)), ('(1', (2, None)), ('"ab', (2, None)),
                       ('@SUM', (2, None)), ('@SUM(', (2, None)), ('@FOO(1)', (3, 0)), ('@SQRT(1)', (4, 0)),
                       ('@ABS(1,2)', (5, 8)), ('@IF(1,2)', (5, 7)), ('FOO', (7, 0)), ('1+FOO', (7, 2)),
                       ('1+1000000000', (6, 2)), ('1E5', (1, 1)), ('1E+5', (7, 1)), ('1E99999', (7, 1)), ('5%', (1, 1)),
                       ('1 2', (1, 2)), ('1)', (1, 1)), ('(1,2)', (1, 2)), ('@SUM 5', (1, 5)), ('1A1', (1, 1)),
                       ('*1', (1, 0)), ('1##', (1, 1)), ('A1..', (1, 2)), ('A1...B2', (1, 2)), ('A1:B2', (1, 2)),
                       ('A8193', (7, 0)), ('IW1', (7, 0)), ('A01', (7, 0)), ('$1', (7, 0)), ('@NOW()', (1, 4)),
                       ('@', (1, 0)), ('1=<2', (1, 2)), ('.', (1, 0)), ('1..2', (1, 2)), ('"a"b"', (7, 3)),
                       ('x' * 241, (8, None)), ('$A$1', None), ('A$1', None), ('A1.B2', None), ('+one', None),
                       ('$ONE', None), ('WIDE', None), ('-+-1', None), ('2*#not#3', None), ('@sum(a1;b1)', None),
                       ('@@("A1")', None), ('@ @', (1, 0)), ('1<>2', None), ('1< >2', (1, 3))):
        assert fault_of(line, nm) == want, (line, fault_of(line, nm), want)


def test_addresses():
    """How addresses are read, and where they fail."""
    for t, at in (('', 0), ('1', 0), ('A', 1), ('A0', 1), ('A8193', 4), ('IW1', 1), ('JA1', 1), ('ABC1', 2), ('A1x', 2),
                  ('AA', 2)):
        assert raises(address.NotAnAddress, read_cell, t.encode()).at == at, t
    for t, at in (('A1.', 3), ('A1...B2', 4), ('A1..', 4), ('A1-', 2), ('A1.B', 4), ('A1.B0', 4)):
        assert raises(address.NotAnAddress, read_span, t.encode()).at == at, t
    assert read_span(b'c3.A1') == ((0, 0), (2, 2)) and read_cell(b'iv8192') == (255, 8191)
