"""Worked examples of the parts: numbers, texts, formulas, sheets, files, reports, notation and macros."""
from ..model import address, cellformat, evaluate, formula, wk1
from ..model import sheet as sheet_mod
from ..model.dates import Moment
from ..model.sheet import Sheet
from .worked_frame import (BOF, c, content, EOF_, eq, error, fault, formula_record, M, macro, message, mode, num, ok,
                           rec, row, text, value, want)



# ---------------------------------------------------------------- part by part

@row('30')
def _():
    eq(text(ok('A1~'), 'A1'), b"'A1")


@row('31')
def _():
    r = ok('{UP}~')
    eq(len(r.frames), 2)
    for f in r.frames:
        eq(f[0][:4], b'A1: ')
        eq(f[0][73:78], b'READY')


@row('32')
def _():
    r = ok('AB{DO', status=4)
    eq(len(r.frames), 2)
    eq(r.notes, b'1-2-3: bad key word at byte 5\n')


@row('33: decimals')
def _():
    eq(cellformat.show_number(1234500000, 0x42, 10), b' 1,234.50 ')
    eq(cellformat.show_number(-5 * M, 0x22, 9), b' ($5.00) ')
    eq(cellformat.show_number(125000, 0x31, 9), b'   12.5% ')
    eq(cellformat.show_number(31929 * M, 0x72, 10), b'01-Jun-87 ')
    eq(cellformat.show_number(31929 * M, 0x72, 9), b'*********')
    eq(cellformat.show_label(ord('^'), b'AB', 7), b'  AB   ')


@row('34')
def _():
    r = ok('A', clock=[(31929, 50700)])
    eq(r.frames[0][24][:15], b'01-Jun-87 14:05')


@row('35: formulas')
def _():
    want(ok('2^3^2~'), 'A1', 64)
    want(ok('-2^2~'), 'A1', -4)
    want(ok('#NOT#0#AND#1~'), 'A1', 1)
    for t, v in (('@SUM(A1..A3)', 1 * M), ('@AVG(A1..A3)', 500000)):
        eq(num(ok('1~{DOWN}X~{RIGHT}' + t + '~'), 'B2'), v)
    want(ok('@IF(@ISERR(1/0),7,8)~'), 'A1', 7)
    want(ok('+"a"="A"~'), 'A1', 1)


@row('36: functions of texts')
def _():
    for t, v in (('@MID("abcdef",1,3)', b'bcd'), ('@REPLACE("abc",1,1,"xy")', b'axyc'), ('@REPEAT("ab",2)', b'abab'),
                 ('@STRING(2.5,0)', b'3'), ('@CHAR(65)', b'A')):
        eq(value(ok(t + '~'), 'A1'), ('str', v))


@row('37')
def _():
    eq(text(ok('+{RIGHT}~'), 'A1'), b'+B1')


@row('38')
def _():
    r = ok('{GOTO}IV8192~{RIGHT}{DOWN}')
    eq(r.session.sheet.settings.pointer, (255, 8191))


@row('39')
def _():
    error(ok('/WCS0~'), 2)


@row('40')
def _():
    r = ok('/QYABC')
    eq(r.keys_taken, 3)
    eq(mode(r), b'READY')


@row('41')
def _():
    want(ok('/WGRM/WGRI3~+A1+1~'), 'A1', 1)
    want(ok('/WGRM/WGRI3~+A1+1~{CALC}'), 'A1', 4)


@row('42')
def _():
    r = ok('+A3~{DOWN}/WIR~')
    eq(text(r, 'A1'), b'+A4')
    r = ok('+A3~{DOWN}/WIR~{DOWN}{DOWN}/WDR~')
    eq(text(r, 'A1'), b'@ERR')


@row('43')
def _():
    eq(content(ok('3~/RVA1~B1~'), 'B1'), ('number', 3 * M))


@row('44')
def _():
    r = ok('1~{DOWN}2~/RTA1.A2~C1~')
    want(r, 'C1', 1)
    want(r, 'D1', 2)


@row('45')
def _():
    r = ok('7~/RNCRATE~~{DOWN}+RATE*2~')
    want(r, 'A2', 14)
    eq(text(r, 'A2'), b'+RATE*2')
    eq(text(ok('7~/RNCRATE~~{DOWN}+RATE*2~/RNDRATE~'), 'A2'), b'+A1*2')


@row('46')
def _():
    error(ok('/RNDX~'), 4)


@row('47')
def _():
    error(ok('/RNC~'), 3)


@row('48')
def _():
    r = ok('5~/FSX~')
    one = r.files['X.WK1']
    eq(one, bytes(wk1.write(r.session.sheet.snapshot())))
    r = ok('5~/FSX~/FSX~R/FRX~')
    want(r, 'A1', 5)
    eq(r.files['X.WK1'], one)


@row('49')
def _():
    r = ok('', ['--file', 'NONE'], status=2)
    eq(r.notes, b'1-2-3: NONE.WK1: no such file\n')


@row('50')
def _():
    error(ok('/FRNONE~'), 6)


@row('51')
def _():
    k = '+A1+1~/FSX~'
    want(ok(k), 'A1', 1)
    want(ok(k + '{CALC}'), 'A1', 2)
    want(ok(k + '{CALC}/FRX~'), 'A1', 2)


@row('52')
def _():
    r = ok('', ['--file'], status=1)
    eq(r.notes, b'1-2-3: bad word: --file\n')


R8 = 'N~{DOWN}1~{DOWN}2~{DOWN}3~{GOTO}C1~N~{DOWN}+A2>1~{GOTO}E1~N~'


@row('53')
def _():
    r = ok(R8 + '/DQIA1.A4~CC1.C2~OE1.E4~E')
    want(r, 'E2', 2)
    want(r, 'E3', 3)
    eq(value(r, 'E4'), ('blank',))


@row('54')
def _():
    r = ok(R8 + '{DOWN}77~/DQIA1.A4~CC1.C2~OE1.E2~E')
    error(r, 16)
    want(r, 'E2', 77)


@row('55')
def _():
    want(ok(R8 + '{GOTO}G1~@DSUM(A1..A4,0,C1..C2)~'), 'G1', 5)


@row('56')
def _():
    error(ok('{TABLE}'), 12)


@row('57')
def _():
    error(ok('/DT1A1.B3~A2~'), 13)


@row('58')
def _():
    r = ok(macro([('D1', '{FOR A1,1,3,1,D3}'), ('D3', '{LET A2,A2+A1}')]))
    want(r, 'A1', 4)
    want(r, 'A2', 6)


@row('59')
def _():
    r = ok("{GOTO}D1~'{{}X{}}~/RNC\\A~~/RNCX~~{ALT A}")
    eq(mode(r), b'ERROR')
    eq(message(r), b'Macro fault M2 at D1')


@row('60')
def _():
    r = ok('{ALT B}')
    eq(mode(r), b'ERROR')
    eq(message(r), b'Macro fault M1 at A1')


@row('61')
def _():
    r = ok(macro([('D1', '{ONERROR D3}/FRNONE~'), ('D3', '{LET A1,9}')]))
    want(r, 'A1', 9)
    eq(mode(r), b'READY')


@row('62')
def _():
    r = ok('', ['--gen', '1'])
    eq(r.notes, b'1-2-3: rows 1\n1-2-3: C1 111\n')


@row('63')
def _():
    eq(content(ok(macro([('D1', '{GETNUMBER N,A1}')], after='{ALT A}12~')), 'A1'), ('number', 12 * M))


@row('64')
def _():
    eq(text(ok(macro([('D1', '{GET A1}')], after='{ALT A}{UP}')), 'A1'), b"'{UP}")


@row('65')
def _():
    ok('', ['--file', 'X', '--gen', '3'], status=1)


@row('66')
def _():
    r = ok('', ['--gen=8001'], status=1)
    eq(r.notes, b'1-2-3: bad word: 8001\n')


@row('67: owners of spans')
def _():
    owners = {'B2': [('A1', 'C9'), ('A1', 'A1')], 'A2': [('A1', 'A1')]}

    def of(cell):
        return sorted((o for o, spans in owners.items()
                       if any(address.in_span(c(cell), (c(a), c(b))) for a, b in spans)),
                      key=lambda o: (c(o)[1], c(o)[0]))

    eq(of('A1'), ['A2', 'B2'])
    del owners['B2']
    eq(of('A1'), ['A2'])
    eq(of('D1'), [])


@row('68')
def _():
    eq(ok('+A1+1~{CALC}{CALC}', ['--count']).notes, b'1-2-3: evaluations 3\n')


@row('69')
def _():
    eq(ok('+B1+1~{RIGHT}+A1+1~{CALC}', ['--count']).notes, b'1-2-3: evaluations 5\n')


@row('70')
def _():
    r = ok('/WGRM+B1~{RIGHT}2~{CALC}', ['--count'])
    eq(r.notes, b'1-2-3: evaluations 2\n')
    want(r, 'A1', 2)


@row('71')
def _():
    eq(ok('/WGRI3~@NOW~', ['--count']).notes, b'1-2-3: evaluations 3\n')


@row('72: another evaluator')
def _():
    old = sheet_mod.glance, sheet_mod.evaluate
    sheet_mod.glance = lambda *a, **k: ('num', 7 * M)
    try:
        s = Sheet()
        t = evaluate.Tally()
        sc = evaluate.Scene((0, 0), Moment(None, 0))
        s.enter(c('B1'), ('number', 5 * M))
        s.enter(c('A1'), ('formula', formula.read(b'+B1', (0, 0), s.names)))
        s.calc(sc, t)
        s.calc(sc, t)
        eq(s.value_of(c('A1')), ('num', 7 * M))
        eq(t.count, 1)
    finally:
        sheet_mod.glance, sheet_mod.evaluate = old


@row('73')
def _():
    r = ok('A', kinds=('pages', 'last'))
    eq(r.displays, [r.made[0]])
    eq(len(r.made[0].frames), 1)
    eq(len(r.made[1].frames), 0)


@row('74')
def _():
    r = ok('A', ['--show', 'ansi'])
    eq((r.displays, r.failed), ([], []))


@row('75')
def _():
    k = "{GOTO}D1~'{{}BLANK D1{}}7{~}~/RNC\\A~~{ALT A}"
    r = ok(k)
    eq(r.session.engine.running, False)
    eq(value(r, 'D1'), ('blank',))
    eq(r.session.sheet.settings.pointer, c('D1'))


@row('76')
def _():
    r = ok('A{ESC}{ESC}')
    eq(r.frames[2], r.frames[1])
    eq(r.per_frame[2][0], r.per_frame[1][0])


@row('77')
def _():
    r = ok('A', failing={'keys': [1]}, status=5)
    eq((len(r.frames), r.notes), (0, b'1-2-3: keys failed\n'))


@row('78')
def _():
    r = ok('A{DO', failing={'keys': [5]}, status=5)
    eq(len(r.frames), 1)


@row('79')
def _():
    r = ok('', ['--file', 'X'], failing={'shelf': [1]}, status=6)
    eq(r.notes, b'1-2-3: X.WK1: disk error\n')


@row('80')
def _():
    r = ok('5~/FRX~', failing={'shelf': [1]})
    error(r, 8)
    want(r, 'A1', 5)


@row('81')
def _():
    r = ok('/FSX~', failing={'shelf': [1]})
    error(r, 8)
    eq(r.files, {})


@row('82')
def _():
    r = ok('', ['--steps', '0'], failing={'notes': [1]}, status=8)
    eq(r.made[0].calls, 0)


@row('83')
def _():
    r = ok('A~', failing={'displays': [[1]]}, status=7)
    eq((r.steps, len(r.frames), r.failed), (2, 0, [r.made[0]]))


@row('84')
def _():
    probe = ok('A~')
    r = ok('A~', failing={'displays': [[probe.made[0].calls]]}, status=7)
    eq((len(r.frames), r.failed), (2, [r.made[0]]))


@row('85')
def _():
    r = ok('A', failing={'displays': [[1], [], [1]]}, kinds=('pages',) * 3, status=7)
    eq(r.failed, [r.made[0], r.made[2]])
    eq(len(r.made[1].frames), 1)


@row('86')
def _():
    r = ok('AB', failing={'displays': [[1]], 'keys': [2]}, status=5)
    eq(r.failed, [r.made[0]])


@row('87')
def _():
    ok('AB', failing={'displays': [[1]], 'keys': [2], 'notes': [1]}, status=8)


@row('88: text files')
def _():
    data = BOF + EOF_
    for i in range(0, 6):
        fault(data[:i], 1)
    for i in range(6, 10):
        fault(data[:i], 2, 6)
    fault(bytes.fromhex('0000020006040F00FFFF41'), 2, 6)
    good = bytes.fromhex('050100') + b'\x08' * 255 + b'\x03'
    wk1.read(BOF + formula_record(good) + EOF_)
    fault(BOF + formula_record(bytes.fromhex('050100') + b'\x08' * 256 + b'\x03') + EOF_, 12, 1)
    fault(BOF + formula_record(b'\x09\x03') + EOF_, 7, 1, 0)
    fault(BOF + rec(0x0F, b'\xff\x00\x01\x00\x00\x27A\x00') + EOF_, 4, 1)
    fault(BOF + rec(0x0E, b'\xff' + bytes(4) + bytes.fromhex('0000000065CDCD41')) + EOF_, 6, 1)
    fault(bytes(67108865), 11)


@row('89: key notation')
def _():
    for k, at in (('{DOWN 0}', 6), ('{DOWN 10000}', 10), ('{DOW', 4)):
        r = ok(k, status=4)
        eq(r.notes, b'1-2-3: bad key word at byte %d\n' % at)


@row('90: macro texts')
def _():
    for t in ('{', '}'):
        r = ok(macro([('D1', t)]))
        eq(mode(r), b'ERROR')
        eq(message(r), b'Macro fault M3 at D1')


@row('91')
def _():
    k = '+B1+1~{RIGHT}+C1+1~{RIGHT}/WGRR5~'
    r = ok(k, ['--count'])
    want(r, 'A1', 2)
    want(r, 'B1', 6)
    r = ok(k + '{CALC}', ['--count'])
    want(r, 'A1', 7)
    want(r, 'B1', 6)
    eq(r.notes, b'1-2-3: evaluations 7\n')


@row('92')
def _():
    r = ok("/WGRM{RIGHT}5~{LEFT}+B1*2~{RIGHT}7~{GOTO}D1~'{{}RECALC A1{}}~/RNC\\A~~{ALT A}", ['--count'])
    want(r, 'A1', 14)
    eq(r.frames[-1][24][50:54], b'CALC')
    eq(r.notes, b'1-2-3: evaluations 2\n')


@row('93')
def _():
    r = ok(macro([('D1', '{RECALC A1,0,51}')]))
    eq(message(r), b'Macro fault M4 at D1')


@row('94')
def _():
    r = ok('+A1+1~/WGRC{CALC}')
    want(r, 'A1', 2)
    eq(r.frames[-1][24][56:60], b'    ')


R17A = '/WCHB1~{RIGHT}'


@row('95')
def _():
    r = ok(R17A)
    eq(r.session.sheet.settings.pointer, c('C1'))
    line = r.frames[-1][3]
    eq((line[8:9], line[17:18]), (b'A', b'C'))


@row('96')
def _():
    for v in ('0504', '0404'):
        eq(wk1.read(bytes.fromhex('00000200' + v) + EOF_).cells, {})


@row('97')
def _():
    r = ok(R17A + '/FSX~/WEY/FRX~')
    eq(r.session.sheet.is_hidden(1), True)


@row('98')
def _():
    fault(BOF + rec(0x64, bytes(31)) + EOF_, 3, 1)


@row('99')
def _():
    want(ok('1~2~{UNDO}'), 'A1', 1)
    eq(value(ok('1~2~{UNDO}{UNDO}'), 'A1'), ('blank',))
    error(ok('1~2~{UNDO}{UNDO}{UNDO}'), 21)


@row('100')
def _():
    r = ok('1~{RIGHT}+A1~{LEFT}2~{UNDO}{CALC}', ['--count'])
    want(r, 'A1', 1)
    want(r, 'B1', 1)
    eq(r.notes, b'1-2-3: evaluations 3\n')


@row('101')
def _():
    r = ok('5~/PFREP~RA1~G')
    data = bytes(r.files['REP.PRN'])
    eq(data.count(b'\r\n'), 66, 'lines')
    eq(len(data), 144, 'bytes')
    eq(data.split(b'\r\n')[5], b' ' * 11 + b'5')


@row('102')
def _():
    error(ok('/PFREP~G'), 22)


@row('103')
def _():
    r = ok('/PFREP~RA1~OP10~MT10~QQG')
    error(r, 23)
    eq(r.files, {})


@row('104')
def _():
    r = ok("{GOTO}D1~'{{}OPEN LOG,W{}}~{DOWN}'{{}WRITELN \"AB\"{}}~{DOWN}'{{}CLOSE{}}~{GOTO}D1~/RNC\\A~~{ALT A}")
    eq(bytes(r.files['LOG.TXT']), bytes.fromhex('41420D0A'))


@row('105')
def _():
    r = ok(macro([('D1', '{OPEN LOG,R}'), ('D2', '{READLN A1}'), ('D3', '{READLN A2}{LET A3,1}')]),
           files={'LOG.TXT': bytes.fromhex('41420D0A')})
    eq(text(r, 'A1'), b"'AB")
    eq(value(r, 'A2'), ('blank',))
    want(r, 'A3', 1)


@row('106')
def _():
    want(ok(macro([('D1', '{CLOSE}{LET A1,2}')])), 'A1', 2)
