"""Tests of the worksheet's half by tables of a second reading, written before the code was read."""
import random
import re

from ..model import address, cellformat, formula, names, query, report
from ..model.dates import Moment
from ..model.sheet import SheetFault
from ..model.values import ERR, NA, string
from .engine_frame import Bed, cell, fault_of, N, raises, scene, span, value_of



# ---- a second reading: tables written before the code was read ----

def test_words_that_are_no_addresses():
    """A word is an address if it is a column and a row with an optional $ before each."""
    nm = names.Names()
    nm.create(b'FOO', span('A1'))
    for line, want in (('$$A1', (7, 0)), ('A$B1', (7, 0)), ('$A$B1', (7, 0)), ('A$$1', (7, 0)), ('1+$$A1', (7, 2)),
                       ('A1..A$B2', (1, 2)), ('A1..$$B2', (1, 2)), ('$A1$', (7, 0)), ('$', (7, 0)), ('$$FOO', (7, 0)),
                       ('A1_', (7, 0)), ('A1..A2X', (1, 2)), ('A1 ..B2', (1, 3)), ('A1.. B2', (1, 2)),
                       ('A1..B2..C3', (1, 6))):
        assert fault_of(line, nm) == want, (line, fault_of(line, nm), want)
    r = random.Random(11)
    for _ in range(20000):
        word = bytes(r.choice(b'$$AaBIVz190_') for _ in range(r.randrange(1, 8)))
        m = re.fullmatch(rb'(\$?)([A-Za-z]{1,2})(\$?)([1-9][0-9]{0,3})', word)
        want = None
        if m:
            col = 0
            for b in m[2].upper():
                col = col * 26 + b - 64
            if col <= 256 and int(m[4]) <= 8192:
                want = (bool(m[1]), bool(m[3]), (col - 1, int(m[4]) - 1))
        got = formula.read_address(word, (3, 3))
        assert (got is None) == (want is None), word
        if got:
            assert (got[0][0] == 'abs', got[1][0] == 'abs', address.resolve(got, (3, 3))) == want, word


def test_values_second_reading():
    """Values as a second reading of the manual has them."""
    b = Bed()
    for c, line in (('A1', '5'), ('A2', "'lab"), ('A4', '@NA'), ('A5', '@ERR'), ('B2', '7'), ('C1', '+"t"&"u"')):
        b.type(c, line)
    b.s.create_name(b'num', span('A1..B2'))
    for line, want in (
            ('2^-3^2', N('0.001953')), ('#NOT#1=2', N(1)), ('1=#NOT#2=3', N(1)), ('1+#NOT#0+2', N(1)), ('--2^2', N(4)),
            ('1#OR#0#AND#0', N(0)), ('"a"&"b"="ab"', ERR), ('0.1^6', N('0.000001')), ('0.1^7', N(0)), ('0.1^-7', ERR),
            ('10^9', ERR), ('10^-9', ERR), ('10^-8', N(0)), ('1/3*3', N('0.999999')), ('333333333*3.000001', ERR),
            ('+A4+A5', ERR), ('@NA+A1..A2', ERR), ('+A3&A3', string(b'')), ('-A3', N(0)), ('#NOT#A3', N(1)),
            ('+A3<""', N(1)), ('0#AND#"x"', ERR), ('0#AND#@ERR', ERR), ('+"_"<"a"', N(0)), ('+"@"<"a"', N(1)),
            ('(A3)&"x"', string(b'x')), ('@CHOOSE(1,A1..B2,5)', N(5)), ('@CHOOSE(0,A1..B2)', ERR),
            ('@CHOOSE(0,A3)&"x"', string(b'x')), ('@IF(0,A1..A2,2)', N(2)), ('@IF(1,A1..A2,2)', ERR),
            ('@IF("x",1,2)', ERR), ('@ISERR(A1..B2)', N(1)), ('@ROUND(999999999.5,0)', ERR),
            ('@ROUND(500000000,-9)', ERR), ('@ROUND(499999999,-9)', N(0)), ('@ROUND(25,-1.9)', N(30)),
            ('@ROUND(1,15.5)', N(1)), ('@MOD(@NA,0)', NA), ('@DATE(-0.5,1,1)', N(1)), ('@DATE(@NA,13,1)', NA),
            ('@DATE(87,999999999,1)', ERR), ('@DATE(0,2,30)', ERR), ('@DATE(100,2,29)', N(36585)), ('@DAY(0.5)', ERR),
            ('@DAY(73050.999999)', N(31)), ('@DAY(73051)', ERR), ('@YEAR(36526)', N(100)), ('@HOUR(0.999999)', N(0)),
            ('@HOUR(-0.000001)', ERR), ('@HOUR(99999999.25)', N(6)), ('@DATEVALUE("29-Feb-00")', N(60)),
            ('@DATEVALUE("2/29/1")', ERR), ('@TIMEVALUE("1:5")', ERR), ('@VALUE("  ")', N(0)), ('@VALUE("1  2")', ERR),
            ('@VALUE("999999999.9999995")', ERR), ('@VALUE(5)', ERR), ('@STRING(-0.4,0)', string(b'0')),
            ('@STRING(1,-0.5)', string(b'1')), ('@MID("abc",-0.5,1)', string(b'a')), ('@MID("abc",5,1)', string(b'')),
            ('@RIGHT("abc",0)', string(b'')), ('@REPLACE("abc",5,1,"x")', string(b'abcx')),
            ('@REPEAT("",999999999)', string(b'')), ('@REPEAT("a",241)', ERR), ('@FIND("","abc",3)', N(3)),
            ('@FIND("","abc",4)', ERR), ('@CHAR(255.9)', string(b'\xff')), ('@CODE("")', ERR), ('@EXACT(1,"1")', ERR),
            ('@COUNT(A3)', N(1)), ('@COUNT(A3..A3)', N(0)), ('@COUNT((A3))', N(1)), ('@SUM(+A2)', N(0)),
            ('@SUM(-A2)', ERR), ('@SUM(@IF(1,A2,0))', ERR), ('@MAX(@IF(1,A3,0))', N(0)), ('@SUM(@NA,"x")', ERR),
            ('@COUNT(A4..A5)', ERR), ('@SUM(999999999,999999999,-999999999)', N(999999999)),
            ('@AVG(-0.000001,0)', N('-0.000001')), ('@COLS(@NA)', ERR), ('@COLS(B3..A1)', N(2)),
            ('@INDEX(B3..A1,0,0)', N(5)), ('@INDEX(A1..B2,@NA,5)', NA), ('@INDEX(A1..B2,1,0)&"x"', string(b'x')),
            ('@VLOOKUP(A3,A2..B3,1)', N(0)), ('@VLOOKUP(-1,A2..B3,1)', ERR), ('@VLOOKUP(5,A1..B5,1)', N(0)),
            ('@VLOOKUP(4,A2..B5,1)&"x"', string(b'x')), ('@CELL("address",B2..A1)', string(b'$A$1')),
            ('@CELL("contents",D9)&"x"', string(b'x')), ('@CELL("type",C1)', string(b'v')), ('@CELL("type",(A1))', ERR),
            ('@@("num")', N(5)), ('@@("$A$1")', ERR), ('@@("D9")&"x"', string(b'x')), ('@@(@NA)', NA)):
        assert value_of(line, b) == want, (line, value_of(line, b), want)


def test_shown_second_reading():
    """Shown numbers and labels by a second reading."""
    for v, f, w, want in (
            ('0.5', 0x00, 4, b'  1 '), ('-0.4', 0x00, 4, b'  0 '), ('5', 0x00, 1, b'*'),
            ('-999.5', 0x40, 9, b' (1,000) '), ('-0.4', 0x40, 5, b'   0 '), ('-0.004', 0x22, 7, b' $0.00 '),
            ('-0.125', 0x30, 6, b' -13% '), ('-0.001', 0x30, 5, b'  0% '),
            ('999999999.999999', 0x32, 18, b' 100000000000.00% '), ('99999999.5', 0x71, 9, b'*' * 9),
            ('99999999.4', 0x71, 9, b'99999999 '), ('9.999999', 0x71, 4, b' 10 '), ('-0.000001', 0x71, 5, b'   0 '),
            ('9.5', 0x71, 2, b'**'), ('-0.4', 0x71, 2, b'0 '), ('0', 0x71, 1, b'*'),
            ('31929.9', 0x72, 11, b' 01-Jun-87 '), ('0.9', 0x74, 8, b'*' * 8), ('73050', 0x72, 10, b'31-Dec-99 '),
            ('12.5', 0x55, 7, b'  12.5 ')):
        assert cellformat.show_number(N(v)[1], f, w) == want, (v, hex(f), w, cellformat.show_number(N(v)[1], f, w))
    for p, t, w, want in ((0x22, b'ABCD', 5, b'ABCD '), (0x22, b'ABCDE', 5, b'ABCDE'), (0x5E, b'ABC', 6, b' ABC  '),
                          (0x5C, b'', 3, b'   ')):
        assert cellformat.show_label(p, t, w) == want, (p, t, w)
    for v, w, want in ((ERR, 4, b'ERR '), (ERR, 3, b'***'), (NA, 3, b'NA '), (NA, 2, b'**')):
        assert cellformat.shown(('formula', ('call', 0x20, [])), v, 0x72, w, 0x71) == want


def sheet_of(cells, nm=()):
    """A sheet of these cells and names."""
    b = Bed()
    for n, s in dict(nm).items():
        b.s.create_name(n.encode(), span(s))
    for c, line in cells.items():
        assert b.type(c, line) is None, (c, line)
    return b


def assert_texts(b, want):
    """Cells must have these entries."""
    for c, t in want.items():
        assert b.text(c) == t, (c, b.text(c), t)


def test_adjust_second_reading():
    """Formulas that follow, by a second reading."""
    for cells, source, to, want in (
            ({'B1': '+A1', 'D1': '+C1', 'A1': '5'}, 'A1', 'C1', {'B1': '+C1', 'D1': '@ERR'}),
            ({'B5': '@SUM(A1..A3)'}, 'A3', 'C3', {'B5': '@SUM(A1..C3)'}),
            ({'B5': '@SUM(A1..A3)'}, 'A1', 'A5', {'B5': '@SUM(A5..A3)'}),
            ({'B5': '@SUM(A1..A3)'}, 'D1', 'A1', {'B5': '@SUM(@ERR)'}),
            ({'B5': '@SUM(A1..A3)'}, 'D1', 'A2', {'B5': '@SUM(A1..A3)'}),
            ({'A1': '+B1', 'B1': '2'}, 'A1', 'B1', {'B1': '@ERR'}),
            ({'A1': '+B1+C1', 'B1': '2'}, 'A1..B1', 'A2', {'A2': '+B2+C1'}),
            ({'A1': '1', 'A2': '+A1', 'B1': '+A1+A2+A3'}, 'A1..A2', 'A2', {'A3': '+A2', 'B1': '+A2+A3+@ERR', 'A1': ''}),
            ({'A1': '@SUM(B1..B3)'}, 'B1..B3', 'B2', {'A1': '@SUM(B2..B4)'}),
            ({'A1': '@SUM(B3..B1)'}, 'B1', 'D9', {'A1': '@SUM(B3..D9)'})):
        b = sheet_of(cells)
        b.s.shift(span(source), cell(to))
        assert_texts(b, want)
    b = sheet_of({'A1': '5'}, {'N': 'A1', 'M': 'C1', 'K': 'A1..B2', 'L': 'B1..C2', 'Q': 'C1..D2'})
    b.s.shift(span('A1'), cell('C1'))
    found = [b.s.names.find(n) for n in (b'N', b'M', b'K', b'L', b'Q')]
    assert found == [span('C1'), None, span('B1..C2'), span('B1..C2'), None]
    for cells, change, want in (
            ({'A5': '@SUM(A1..A3)'}, ('delete_rows', 1, 1), {'A4': '@SUM(A1..A2)'}),
            ({'A5': '@SUM(A1..A3)'}, ('delete_rows', 2, 1), {'A4': '@SUM(@ERR)'}),
            ({'A5': '@SUM(A1..A3)'}, ('insert_rows', 2, 2), {'A7': '@SUM(A1..A5)'}),
            ({'A5': '@SUM(A1..A3)'}, ('insert_rows', 3, 2), {'A7': '@SUM(A1..A3)'}),
            ({'A1': '+A8192', 'A2': '@SUM(B1..B8192)', 'A3': '+A8191'}, ('insert_rows', 5, 1),
             {'A1': '@ERR', 'A2': '@SUM(@ERR)', 'A3': '+A8192'}),
            ({'B1': '+A1', 'C1': '+$B$1'}, ('delete_columns', 0, 1), {'A1': '@ERR', 'B1': '$A$1'})):
        b = sheet_of(cells)
        getattr(b.s, change[0])(*change[1:])
        assert_texts(b, want)


def test_copies_second_reading():
    """Copies of spans by a second reading."""
    for source, to, want in (('A1..A3', 'C1..E1', {'C1': '1', 'E3': '3', 'F1': ''}),
                             ('A1..B1', 'A5..A7', {'A5': '1', 'B7': '4', 'A8': ''}),
                             ('A1..A3', 'C1..D9', {'D3': '3', 'C4': ''}), ('A1..B2', 'D5..Z20', {'D5': '1', 'F5': ''})):
        b = sheet_of({'A1': '1', 'A2': '2', 'A3': '3', 'B1': '4'})
        b.s.copy_span(span(source), span(to))
        assert_texts(b, want)
    for source, to in (('A1..B1', 'IV1'), ('A1..B1', 'IV1..IV2'), ('A1..A2', 'IU8192..IV8192')):
        f = raises(SheetFault, Bed().s.copy_span, span(source), span(to))
        assert (f.kind, f.payload) == ('OutOfSheet', span(source))


def test_work_second_reading():
    """How many evaluations edits come to, by a second reading."""
    def work(steps):
        b, out = Bed(), []
        for step in steps:
            before = b.t.count
            step(b) if callable(step) else b.type(*step)
            out.append(b.t.count - before)
        return out

    def setting(**k):
        def change(b):
            st = b.s.settings.copy()
            for name, v in k.items():
                setattr(st, name, v)
            b.s.set_settings(st)
        return change

    edit = lambda name, *args: lambda b: (getattr(b.s, name)(*args), b.after())
    calc = Bed.calc
    assert work([('A1', '5'), ('A2', '+A1'), ('B1', '7'), ('B2', '+B1'), ('A1', '6')]) == [0, 1, 0, 1, 1]
    assert work([setting(automatic=False), ('A1', '+B1'), ('B1', '2'), calc, calc]) == [0, 1, 0, 1, 0]
    assert work([setting(automatic=False), ('A1', '+B1'), ('A1', '5'), calc]) == [0, 1, 0, 0]
    assert work([('A1', '+A1+1'), ('B1', '+A1'), ('C1', '+B1'), calc, ('D1', '5'), ('A1', '5'),
                 calc]) == [1, 2, 3, 3, 3, 2, 0]
    assert work([setting(passes=4), ('A1', '+B1'), ('B1', '5'), ('C1', '+C1')]) == [0, 1, 1, 4]
    assert work([('A1', '@@("B1")'), ('A2', '+A1'), ('A3', '7'), ('A4', '+A3'), calc]) == [1, 2, 2, 3, 2]
    assert work([('A1', '+B1'), ('A2', '+B2'), ('A3', '+B3'), edit('insert_rows', 5, 1), edit('erase', span('B1..B2')),
                 edit('shift', span('Z1'), cell('Z2')), edit('copy_span', span('A1'),
                                                             span('C1..C2'))]) == [1, 1, 1, 3, 2, 3, 2]


def test_queries_second_reading():
    """Queries by a second reading."""
    cells = {'A1': 'N', 'B1': 'T', 'A2': '1', 'B2': 'abc', 'A3': '2', 'B3': 'ABD', 'A4': '3', 'A5': '0', 'B5': '+"ab"',
             'A6': '@NA', 'B6': '@ERR', 'B7': '5'}
    for crit, c, want in (({'E1': 'N', 'E2': '0'}, 'E1..E2', [5]), ({'E1': 'N'}, 'E1..E2', [2, 3, 4, 5, 6, 7]),
                          ({'E1': 'N'}, 'E1', []),
                          ({'E1': 't', 'E2': 'ab?'}, 'E1..E2', [2, 3]), ({'E1': 'T', 'E2': 'ab*'}, 'E1..E2', [2, 3, 5]),
                          ({'E1': 'T', 'E2': '~ab*'}, 'E1..E2', [4, 6, 7]), ({'E1': 'T', 'E2': "'"}, 'E1..E2', []),
                          ({'E1': 'T', 'E2': "'5"}, 'E1..E2', []),
                          ({'E1': 'T', 'E2': 'AB', 'E3': 'abc'}, 'E1..E3', [2, 5]),
                          ({'E1': 'N', 'F1': 'T', 'E2': '1', 'F3': 'ab'}, 'E1..F3', [2, 5]),
                          ({'E1': 'zz', 'E2': '1'}, 'E1..E2', 'E1'), ({'E1': 'zz', 'E2': '+A2>1'}, 'E1..E2', [3, 4]),
                          ({'E2': '+A2>1'}, 'E1..E2', [3, 4]),
                          ({'E1': 'N', 'F1': 'zz', 'F3': 'x', 'G1': 'yy', 'G2': '1'}, 'E1..G3', 'F1'),
                          ({'E1': 'N', 'E2': '+A3>1'}, 'E1..E2', [2, 3]),
                          ({'E1': 'N', 'E2': '@ISERR(@DSUM(A1..B7,0,E1..E1))'}, 'E1..E2', [2, 3, 4, 5, 6, 7])):
        b = sheet_of({**cells, **crit})
        try:
            got = [r + 1 for _, r in query.select(span('A1..B7'), span(c), b.s, scene())]
        except query.QueryFault as f:
            got = address.cell_text(f.payload).decode()
        assert got == want, (crit, got, want)
    b = sheet_of({'A1': 'N', 'A2': '1', 'A3': '2', 'A4': '3', 'E8191': 'x', 'E8192': '+A2>1'})
    assert query.select(span('A1..A4'), span('E8191..E8192'), b.s, scene()) == [(0, 2), (0, 3)]
    b = sheet_of({'A1': 'N', 'B1': 'M', 'A2': '1', 'B2': '+A2*2', 'A3': '2', 'B3': '+A3*2', 'A4': '3', 'B4': '$A$4+A4',
                  'E1': 'N', 'E2': '2'})
    b.s.write(query.delete(span('A1..B4'), span('E1..E2'), b.s, scene()))
    assert [b.text(c) for c in ('A2', 'B2', 'A3', 'B3', 'A4', 'B4')] == ['1', '+A2*2', '3', '$A$4+A3', '', '']


def test_report_second_reading():
    """Reports by a second reading."""
    b = sheet_of({'A1': "'abcdefghijklmnop", 'C1': '7', 'A2': "'r2", 'A5': "'r5"})
    n = b'\r\n'
    set_ = report.PrintSettings(header=b'L|#|x', footer=b'@', left=2, right=20, top=0, bottom=0, length=10)
    head = lambda k: b'  L       %d        x' % k + n + n + n
    foot = n + n + b'  01-Jun-87' + n
    assert report.report(span('A1..C5'), set_, b.s.snapshot(), Moment(31929, 5)) == (
        head(1) + b'  abcdefghijklmnop' + n + b'  r2' + n + n + n + foot + head(2) + b'  r5' + n + n + n + n + foot
        + head(3) + b'         7' + n + n + n + n + foot + head(4) + n + n + n + n + foot)
