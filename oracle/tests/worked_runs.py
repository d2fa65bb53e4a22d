"""Worked examples of whole runs."""
from ..model import fixed, formula, wk1
from ..model.names import Names
from ..model.sheet import Sheet
from .worked_frame import BOF, content, EOF_, eq, error, fault, formula_record, M, mode, num, ok, row, text, value, want



# ---------------------------------------------------------------- whole runs

@row('1')
def _():
    r = ok('')
    eq(len(r.frames), 0)
    eq(r.steps, 0)


@row('2')
def _():
    r = ok('TOTAL~{DOWN}')
    eq(len(r.frames), 7)
    f = r.frames[5]
    eq(f[0][:10], b"A1: 'TOTAL")
    eq(f[4][:9], b'   1TOTAL')
    eq(r.frames[6][0][:4], b'A2: ')
    eq(r.frames[6][0][73:78], b'READY')


@row('3')
def _():
    r = ok('+1/3~')
    eq(num(r, 'A1'), 333333)
    eq(r.frames[-1][4][4:13], b'0.333333 ')
    eq(num(ok('+2/3~'), 'A1'), 666667)
    eq(num(ok('-1/2*0.000001~'), 'A1'), -1)


@row('4')
def _():
    eq(value(ok('+999999999.999999+0.000001~'), 'A1'), ('err',))
    r = ok('1000000000~')
    eq(mode(r), b'EDIT')
    eq(r.session.entry.cursor, 0)
    eq(value(r, 'A1'), ('blank',))


@row('5')
def _():
    r = ok('+A1+1~{CALC}{CALC}')
    want(r, 'A1', 3)
    eq(r.frames[-1][24][56:60], b'CIRC')


@row('6')
def _():
    r = ok('+B1+1~{RIGHT}+A1+1~')
    want(r, 'A1', 3)
    want(r, 'B1', 2)
    r = ok('+B1+1~{RIGHT}+A1+1~{CALC}')
    want(r, 'A1', 5)
    want(r, 'B1', 4)


@row('7')
def _():
    r = ok('5~{DOWN}+A1~{RIGHT}{UP}7~{DOWN}+B1~{LEFT}{UP}6~', ['--count'])
    eq(r.notes, b'1-2-3: evaluations 3\n')


@row('8')
def _():
    for t, v in (('@DATE(0,2,29)', 60), ('@DATE(0,3,1)', 61), ('@DATE(87,6,1)', 31929), ('@DATE(199,12,31)', 73050)):
        want(ok(t + '~'), 'A1', v)
    eq(value(ok('@DATE(200,1,1)~'), 'A1'), ('err',))


@row('9')
def _():
    eq(text(ok('+B1~/C~IV8192~'), 'IV8192'), b'+A8192')


@row('10')
def _():
    r = ok('{RIGHT}+A1~{RIGHT}{RIGHT}+C1~{HOME}/M~C1~')
    eq(text(r, 'B1'), b'+C1')
    eq(text(r, 'D1'), b'@ERR')


@row('11')
def _():
    r = ok('{GOTO}D1~\'{{}LET D2,"7{~}"{}}~/RNC\\A~~{DOWN}\'5{~}~{HOME}{ALT A}')
    eq(content(r, 'A1'), ('number', 7 * M))
    eq(text(r, 'D2'), b"'7~")


@row('12')
def _():
    r = ok("{GOTO}D1~'{{}BRANCH D1{}}~/RNC\\A~~{ALT A}", ['--steps', '100'], status=3)
    eq(len(r.frames), 100)
    eq(r.notes, b'1-2-3: stopped after 100 steps\n')
    r = ok("{GOTO}D1~'{{}BRANCH D1{}}~/RNC\\A~~", ['--steps', '100'])
    eq(r.steps, 25)


@row('13')
def _():
    data = BOF + EOF_
    eq(wk1.read(data).cells, {})
    eq(wk1.read(data).settings, Sheet().settings)
    fault(data[:-1], 2, 6)
    fault(data[:4] + b'\x07' + data[5:], 1)


@row('14')
def _():
    bits = int.from_bytes(bytes.fromhex('9A9999999999B93F'), 'little')
    got = fixed.from_double_bits(bits)
    eq(got if isinstance(got, int) else got[-1], 100000)
    eq(fixed.to_double_bits(100000), bits)


@row('15')
def _():
    code = bytes.fromhex('0501000501000501003803')
    files = {'PAY.WK1': BOF + formula_record(code) + EOF_}
    r = ok('', ['--file', 'PAY'], files, status=2)
    eq(r.notes, b'1-2-3: PAY.WK1: F8 1 38\n')
    r = ok('@PMT(1,1,1)~')
    eq(mode(r), b'EDIT')
    eq(r.session.entry.cursor, 0)
    try:
        formula.read(b'@PMT(1,1,1)', (0, 0), Names())
        raise AssertionError('accepted')
    except formula.ParseFault as f:
        eq((f.number, f.at), (4, 0))


ROW16 = '{GOTO}E2~1~{DOWN}2~{DOWN}3~{GOTO}F1~+C1*2+F2~/DT1E1.F4~C1~'


@row('16')
def _():
    r = ok(ROW16)
    for a, v in (('F2', 2), ('F3', 4), ('F4', 6), ('F1', 2)):
        want(r, a, v)
    eq(value(r, 'C1'), ('blank',))


@row('17')
def _():
    r = ok('A~{DOWN}', failing={'displays': [[], [3]]}, kinds=('pages', 'pages'), status=7)
    eq(len(r.made[0].frames), 3)
    eq(r.failed == [r.made[1]] and r.displays == [r.made[0]], True, 'lists')
    eq(r.notes, b'1-2-3: display failed\n')


def budget():
    """The keys of a small budget."""
    k = 'MONTH{RIGHT}IN{RIGHT}OUT{RIGHT}NET{HOME}{DOWN}'
    for m in range(1, 13):
        k += '@DATE(87,%d,1){RIGHT}1000{RIGHT}%d{RIGHT}+B%d-C%d{DOWN}{LEFT}{LEFT}{LEFT}' % (m, 900 + 10 * (m - 1),
                                                                                      m + 1, m + 1)
    k += '/RFD3A2.A13~'
    k += '{GOTO}D14~@SUM(D2..D13)~/RNCYEAR~~'
    k += '{GOTO}F1~@VLOOKUP(@DATE(87,6,15),A2..D13,3)~'
    k += '{GOTO}H1~NET~{DOWN}+D2<0~{GOTO}J1~MONTH~'
    k += '/DQIA1.D13~CH1.H2~OJ1.J5~EX'.replace('EX', 'E')
    return k


@row('18')
def _():
    k = budget() + "{GOTO}Z1~'/FSBUDGET{~}~/RNC\\B~~{ALT B}"
    r = ok(k)
    want(r, 'D14', 540)
    want(r, 'F1', 50)
    want(r, 'J2', 32112)
    before = {k_: (s.content, s.value, s.format) for k_, s in r.session.sheet.cells.items()}
    r2 = ok(k + '/FRBUDGET~')
    eq({k_: (s.content, s.value, s.format) for k_, s in r2.session.sheet.cells.items()}, before)


@row('19')
def _():
    r = ok('ABC{DWN}', status=4)
    eq(r.notes, b'1-2-3: bad key word at byte 5\n')
    eq(len(r.frames), 3)


@row('20')
def _():
    r = ok('5~', ['--gen', '8000', '--count'])
    eq(r.notes, b'1-2-3: rows 8000\n1-2-3: C8000 1199973\n1-2-3: evaluations 24001\n')
    r = ok('', ['--gen', '8000', '--count'])
    eq(r.notes, b'1-2-3: rows 8000\n1-2-3: C8000 1200069\n1-2-3: evaluations 16000\n')


@row('21')
def _():
    r = ok('5~{DOWN}+A1*2~/FSX~')
    w = bytes.fromhex('10001900FF00000100000000000000244' + '00A00010080FFBF0502000B03')
    eq(w in r.files['X.WK1'], True, 'record in ' + r.files['X.WK1'].hex(' '))


@row('22')
def _():
    r = ok('1~/WGPE2~')
    error(r, 5)
    want(r, 'A1', 1)
    r = ok('1~/WGPE2~{ESC}')
    eq(mode(r), b'READY')


@row('23')
def _():
    r = ok('{GOTO}A8192~9~{HOME}1~/WIR~')
    error(r, 9)
    want(r, 'A1', 1)
    want(r, 'A8192', 9)


@row('24')
def _():
    r = ok('/FSX~', failing={'shelf': [2]})
    error(r, 8)
    r = ok('/FSX~~5~', failing={'shelf': [2]})
    want(r, 'A1', 5)
    eq(r.files, {})


@row('25')
def _():
    r = ok('A', ['--steps', '0'], kinds=('pages', 'last'), status=1)
    eq(r.notes, b'1-2-3: bad word: 0\n')
    eq(len(r.displays), 2)


@row('26')
def _():
    r = ok('ABC', failing={'keys': [3]}, status=5)
    eq(len(r.frames), 2)


@row('27')
def _():
    error(ok('/DFA1.A3~1~0~9~'), 11)
    r = ok('{DOWN}{DOWN}8~{HOME}/DFA1.A3~1~2~4~')
    want(r, 'A1', 1)
    want(r, 'A2', 3)
    want(r, 'A3', 8)


@row('28')
def _():
    r = ok('3~{DOWN}1~{DOWN}2~/DSDA1.A3~PA1~A~G')
    for a, v in (('A1', 1), ('A2', 2), ('A3', 3)):
        want(r, a, v)
    r = ok('3~{DOWN}1~{DOWN}2~{RIGHT}{UP}{UP}2~/DSDA1.A3~PA1~A~G/DDA1.A3~B1~')
    want(r, 'C1', 2)
    want(r, 'C2', 1)


@row('29: values by row and by column')
def _():
    eq(content(ok('+1/3~/RVA1~B1~'), 'B1'), ('number', 333333))
    r = ok('3~{DOWN}1~{DOWN}2~/RTA1.A2~C1~')
    want(r, 'C1', 3)
    want(r, 'D1', 1)
