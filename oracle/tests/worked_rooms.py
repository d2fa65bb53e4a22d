"""Worked examples of macros' words, modes, menus, prompts and errors, and tables of keys with what is seen of them."""
from ..model import menu
from ..model.cli import run
from ..model.commands import MESSAGES
from .worked_frame import c, eq, M, macro, message, mode, num, ok, q, row, text, value, want



# ---------------------------------------------------------------- the rules of macros, modes and menus

def stopped(r, t):
    """A run must have stopped with this message."""
    eq((mode(r), message(r)), (b'ERROR', t))


def macros_branch():
    """DISPATCH, IF and /XI."""
    r = ok(macro([('D1', '{DISPATCH B1}'), ('B1', 'D5'), ('D5', '{LET A1,5}')]))
    want(r, 'A1', 5)
    stopped(ok(macro([('D1', '{DISPATCH B1}')])), b'Macro fault M5 at D1')
    stopped(ok(macro([('D1', '{DISPATCH B1}'), ('B1', '!')])), b'Macro fault M4 at D1')
    r = ok(macro([('D1', '{IF 0}{LET A1,1}'), ('D2', '{IF 1}{LET A2,2}'), ('D3', '/XIA9~{LET A3,3}'),
                  ('D4', '{LET A4,4}')]))
    eq(value(r, 'A1'), ('blank',))
    want(r, 'A2', 2)
    eq(value(r, 'A3'), ('blank',))
    want(r, 'A4', 4)


def macros_call():
    """Calls, DEFINE, RETURN and RESTART."""
    k = "{GOTO}F1~/RNCSUB~~" + macro([('D1', '{SUB 1+2,1+2}{LET A3,9}'),
                                      ('F1', '{DEFINE A1,A2:value}{RETURN}{LET A4,1}')])
    r = ok(k)
    eq(text(r, 'A1'), b"'1+2")
    want(r, 'A2', 3)
    want(r, 'A3', 9)
    eq(value(r, 'A4'), ('blank',))
    stopped(ok(macro([('D1', '{DEFINE A1}')])), b'Macro fault M4 at D1')
    r = ok("{GOTO}F1~/RNCSUB~~" + macro([('D1', '{SUB}{LET A1,1}'), ('F1', '{RESTART}{RETURN}')]))
    eq(value(r, 'A1'), ('blank',))
    r = ok(macro([('D1', '/XCF1~/XGD5~'), ('F1', '{LET A1,1}/XR'), ('D5', '{LET A2,2}/XQ{LET A3,3}')]))
    want(r, 'A1', 1)
    want(r, 'A2', 2)
    eq(value(r, 'A3'), ('blank',))


def macros_loop():
    """FOR and FORBREAK."""
    r = ok(macro([('D1', '{FOR A1,3,1,-1,D5}{LET A3,A1}'), ('D5', '{LET A2,A2*10+A1}')]))
    want(r, 'A2', 321)
    want(r, 'A3', 0)
    r = ok(macro([('D1', '{FOR A1,1,9,1,D5}{LET A3,7}'), ('D5', '{IF A1=2}{FORBREAK}')]))
    want(r, 'A1', 2)
    want(r, 'A3', 7)
    stopped(ok(macro([('D1', '{FOR A1,1,9,0,D5}')])), b'Macro fault M4 at D1')
    stopped(ok(macro([('D1', '{FORBREAK}')])), b'Macro fault M4 at D1')
    r = ok(macro([('D1', '{FOR A1,1,9,1,D5}{LET A3,7}'), ('D5', '{LET A1,"x"}')]))
    eq(text(r, 'A1'), b'@ERR')
    want(r, 'A3', 7)
    r = ok(macro([('D1', '{FOR A1,5,1,1,D5}{LET A3,7}'), ('D5', '{LET A2,1}')]))
    want(r, 'A1', 5)
    eq(value(r, 'A2'), ('blank',))
    want(r, 'A3', 7)


def macros_put():
    """LET, PUT, BLANK and CONTENTS."""
    r = ok(macro([('D1', '{LET A1,B2:string}{LET A2,abc def}{LET A3,1/0}{LET A4,5:value}{PUT A5..B6,1,1,8}'),
                  ('D2', '{CONTENTS C1,A4}{CONTENTS C2,A4,6,2}{BLANK A1..A2}')]))
    eq(value(r, 'A1'), ('blank',))
    eq(text(r, 'A3'), b'@ERR')
    want(r, 'A4', 5)
    want(r, 'B6', 8)
    eq(text(r, 'C1'), b"'       5 ")
    eq(text(r, 'C2'), b"' 5.00 ")
    stopped(ok(macro([('D1', '{PUT A5..B6,2,1,8}')])), b'Macro fault M4 at D1')
    ok(macro([('D1', '{LET A1,@SUM(3,4)}')]))      # not cut inside round brackets


def macros_repeat():
    """Keys with numbers of repeats."""
    r = ok(macro([('D1', '{DOWN B1}x~'), ('B1', 'y')]))
    stopped(r, b'Macro fault M4 at D1')
    r = ok(macro([('D1', '{DOWN 2+1}{RIGHT 0}{UP -1}x~')]))
    eq(text(r, 'A4'), b"'x")


@row('macro words')
def _():
    macros_branch()
    macros_call()
    macros_loop()
    macros_put()
    macros_repeat()


def macros_ask():
    """GET, GETLABEL, GETNUMBER, LOOK, /XL and /XN."""
    r = ok(macro([('D1', '{GETLABEL "Name?",A1}{GET A2}{GETNUMBER Age,A3}{LOOK A4}'), ('D2', '/XLhey~B1~/XNn~B2~')],
                 after='{ALT A}abc{UP}{ESC}{ESC}de~{ALT x}1+1~fg~zz*~'))
    eq(text(r, 'A1'), b"'de")
    eq(text(r, 'A2'), b"'{ALT X}")
    want(r, 'A3', 2)
    eq(text(r, 'A4'), b"'")
    eq(text(r, 'B1'), b"'fg")
    eq(text(r, 'B2'), b'@ERR')
    r = ok(macro([('D1', '{GETLABEL "Name?",A1}')], after='{ALT A}ab'))
    eq(r.frames[-1][1][:9], b'Name? ab ')
    eq(mode(r), b'EDIT')


def macros_show_menus():
    """MENUBRANCH, MENUCALL and `?`."""
    cells = [('D1', '{MENUBRANCH F1}{LET A9,9}'), ('F1', 'One'), ('G1', 'Two'), ('F2', 'first'), ('G2', 'second'),
             ('F3', '{LET A1,1}'), ('G3', '{LET A1,2}')]
    r = ok(macro(cells))
    eq(mode(r), b'MENU')
    eq(r.frames[-1][1].rstrip(), b'[One] Two')
    eq(r.frames[-1][2].rstrip(), b'first')
    want(ok(macro(cells, after='{ALT A}~')), 'A1', 1)
    want(ok(macro(cells, after='{ALT A}t')), 'A1', 2)
    want(ok(macro(cells, after='{ALT A}{LEFT}~')), 'A1', 2)
    want(ok(macro(cells, after='{ALT A}{ESC}')), 'A9', 9)
    cells[0] = ('D1', '{MENUCALL F1}{LET A9,9}')
    r = ok(macro(cells, after='{ALT A}t'))
    want(r, 'A1', 2)
    want(r, 'A9', 9)
    stopped(ok(macro([('D1', '{MENUCALL F1}')])), b'Macro fault M5 at D1')
    r = ok(macro([('D1', '{?}{LET A9,9}')], after='{ALT A}{DOWN}5{DOWN}~'))
    want(r, 'A2', 5)
    want(r, 'A9', 9)


def macros_wait():
    """WAIT over stated moments, and BREAK at words that wait."""
    k = macro([('D1', '{WAIT 31930}{LET A1,1}')])
    base = ok(k[:-len('{ALT A}')]).steps
    r = run([], k, {}, [(31929, 0)] * (base + 5) + [(31930, 0)])
    want(r, 'A1', 1)
    # start, base keys, ALT, then WAIT steps at 31929 until the reading of 31930
    eq(r.steps, base + 8)
    want(ok(k), 'A1', 1)
    # BREAK
    r = ok(macro([('D1', '{BREAKOFF}{GET A1}{LET A2,2}')], after='{ALT A}{BREAK}x'))
    eq(text(r, 'A1'), b"'x")
    r = ok(macro([('D1', '{GET A1}{LET A2,2}')], after='{ALT A}{BREAK}x~'))
    eq(text(r, 'A1'), b"'x")
    eq(value(r, 'A2'), ('blank',))
    r = ok(macro([('D1', '{GET A1}')], after='{ALT A}{UNDO}x'))
    eq(text(r, 'A1'), b"'x")


@row('waiting words')
def _():
    macros_ask()
    macros_show_menus()
    macros_wait()


@row('switches')
def _():
    r = ok(macro([('D1', '{INDICATE "HELLO YOU"}{PANELOFF}{WINDOWSOFF}x~{GET A9}')]))
    f = r.frames[-1]
    eq(f[0][73:80], b'HELLO  ')
    eq(f[4][4:5], b' ')
    eq(f[0][:5].rstrip(), b'A1:')
    eq(f[24][67:70], b'CMD')
    r = ok(macro([('D1', '{INDICATE "HELLO YOU"}{PANELOFF}{WINDOWSOFF}x~{GET A9}')], after='{ALT A}z'))
    eq(r.frames[-1][4][4:5], b'x')
    eq(r.frames[-1][0][73:80], b'HELLO  ')
    r = ok(macro([('D1', '{ONERROR D3,A2}/FRNONE~'), ('D3', '{LET A1,9}')]))
    eq(text(r, 'A2'), b"'File does not exist")


@row('file words')
def _():
    files = {'LOG.TXT': b'one\r\ntwo\nthree'}
    r = ok(macro([('D1', '{OPEN "log",m}'), ('D2', '{FILESIZE A1}'), ('D3', '{READ 2,A2}'), ('D4', '{READLN A3}'),
                  ('D5', '{GETPOS A4}'), ('D6', '{SETPOS 99}{LET A5,1}{SETPOS 8}'), ('D7', '{WRITE XY}'),
                  ('D8', '{CLOSE}'), ('D9', '{CLOSE}{OPEN NONE,R}{OPEN A.B,R}')]), files=files)
    want(r, 'A1', 14)
    eq((text(r, 'A2'), text(r, 'A3')), (b"'on", b"'e"))
    want(r, 'A4', 5)
    want(r, 'A5', 1)
    eq(bytes(r.files['LOG.TXT']), b'one\r\ntwoXYhree')
    stopped(r, b'Macro fault M4 at D9')
    eq([x[0] for x in r.shelf_log], ['get', 'put', 'get'])
    r = ok(macro([('D1', '{ONERROR D5}{OPEN LOG,W}'), ('D2', '{CLOSE}'), ('D5', '{LET A1,1}')]), failing={'shelf': [1]})
    want(r, 'A1', 1)


@row('prompts, menus and modes')
def _():
    r = ok('/')
    eq(r.frames[-1][1].rstrip(), b'[Worksheet] Range  Copy  Move  File  Print  Data  Quit')
    eq(r.frames[-1][2].rstrip(), b'Global  Insert  Delete  Column  Erase')
    r = ok('/RE{DOWN}{ABS}')
    eq(r.frames[-1][1].rstrip(), b'Erase $A$1..$A$2')
    r = ok('/FSAB~/FS')
    eq(r.frames[-1][1].rstrip(), b'Save AB.WK1')
    r = ok('/FSAB~5~/FS~R')
    want(r, 'A1', 5)
    eq(sorted(ok('/FSAB~/FSC~').files), ['AB.WK1', 'C.WK1'])
    r = ok('+{RIGHT}.{DOWN}*2~')
    eq(text(r, 'A1'), b'+B1..B2*2')
    r = ok('+{RIGHT}{ABS}{ABS}+1~')
    eq(text(r, 'A1'), b'+B$1+1')
    r = ok('/RNCBB~~/RNCAA~~/RND{NAME}{NAME}~')
    eq([n_ for n_, _ in r.session.sheet.names.items()], [b'AA'])
    r = ok('+1+(~')
    eq((mode(r), r.session.entry.cursor), (b'EDIT', 4))
    r = ok('+1)+2{DOWN}')
    eq((mode(r), r.session.entry.cursor, r.session.sheet.settings.pointer), (b'EDIT', 2, (0, 0)))
    r = ok('1{DOWN}{DOWN}2{DOWN}{HOME}{END}{DOWN}')
    eq(r.session.sheet.settings.pointer, (0, 2))
    r = ok('1{DOWN}2{DOWN}{HOME}{END}{DOWN}')
    eq(r.session.sheet.settings.pointer, (0, 1))
    r = ok('{END}{RIGHT}')
    eq(r.session.sheet.settings.pointer, (255, 0))
    r = ok('{END}')
    eq(r.frames[-1][24][62:65], b'END')


# ---------------------------------------------------------------- tables of keys, written before the code was read.
# A case is (keys, what is seen).

def sees_texts(r, wanted, what):
    """The texts of cells."""
    for at, x in wanted.items():
        eq(text(r, at), x.encode('latin-1'), what + ' ' + at)


def sees_values(r, wanted, what):
    """The values of cells; None is blank."""
    for at, x in wanted.items():
        if x is None:
            eq(value(r, at), ('blank',), what + ' ' + at)
        else:
            eq(num(r, at), int(round(x * M)), what + ' ' + at)


# what is seen of a run under each letter but `l`
SEEN = {'m': lambda r, w, what: eq(mode(r), w.encode(), what),
        'p': lambda r, w, what: eq(r.session.sheet.settings.pointer, c(w), what),
        'k': lambda r, w, what: eq(len(r.frames), w, what), 's': lambda r, w, what: eq(r.steps, w, what),
        'n': lambda r, w, what: eq(r.notes, b''.join(b'1-2-3: ' + x.encode() + b'\n' for x in w), what),
        't': sees_texts, 'v': sees_values}


def sees(keys, words=(), files=None, clock=None, failing=None, status=0, **seen):
    """m mode, p pointer, l0, l1, l2, l3, l4 and l24 lines without end blanks, e error, f macro fault, b bad key word,
    n notes, k frames, s steps, t texts, v values (None is blank)."""
    r = run(list(words), keys, files, clock, failing)
    what = repr(keys)[:90]
    lines = r.frames[-1] if r.frames else None
    if 'b' in seen:
        status = 4
        seen['n'] = ['bad key word at byte %d' % seen.pop('b')]
    eq(r.status, status, what)
    if 'f' in seen:
        eq((mode(r), message(r)), (b'ERROR', b'Macro fault ' + seen.pop('f').encode()), what)
    if 'e' in seen:
        eq((mode(r), message(r)), (b'ERROR', MESSAGES[seen.pop('e')].encode()), what)
    for k, w in seen.items():
        if k[0] == 'l':
            line = int(k[1:])
            eq(lines[line][:72 if line == 0 else 80].rstrip(), w.encode('latin-1'), what)
        else:
            SEEN[k](r, w, what)
    return r


def macro_sees(cells, keys='', names=(), before='', first='D1', **seen):
    """The cells of a macro that D1 begins, named \A, with further names; `before` comes before {ALT A}, keys after."""
    k = ''
    for at, t in cells.items():
        k += '{GOTO}%s~%s~' % (at, q(t[1:]) if t[:1] == '=' else "'" + q(t))
    k += '/RNC\\A~%s~' % first + ''.join('/RNC%s~%s~' % nm for nm in names) + '{HOME}' + before
    return sees(k + '{ALT A}' + keys, **seen)


@row('offsets of bad key words')
def _():
    for keys, at in [('{DOWN 01}', 6), ('{DOWN  1}', 6), ('{DOWN }', 6), ('{}x', 2), ('{~ 2}', 2), ('}', 0), ('{X}', 1),
                     ('{ALT}', 4), ('{ALT 1}', 5), ('{ALT A }', 6), ('{ALT AB}', 6), ('{ALT  A}', 5), ('{BREAK 2}', 6),
                     ('{UNDO 1}', 5), ('{DO\nWN}', 3), ('A\t', 1), ('{DE}', 3), ('{DOWN', 5), ('{', 1),
                     ('{D 10000}', 7), ('A{~', 3), ('{DOWN1}', 5), ('{ESCA}', 5), ('{BAC}', 4), ('{Q}', 2),
                     ('{DOWN 3 }', 7), ('{\n}', 1)]:
        sees(keys, b=at)
    sees('{D 9999}', p='A8192', k=9999)
    sees('\r\nA\n\n~\n', k=2, t={'A1': "'A"})
    sees('{~}{{}{}}~', t={'A1': "'~{}"})
    sees('AB{BACKSPACE}C{bs 1}{l}~', p='A1', m='READY')
    sees('AB{DO', words=['--steps', '2'], b=5)          # the bytes are read before the limit is tested
    sees('AB\n', words=['--steps', '2'], k=2)
    sees('A{DOWN 2}', words=['--steps', '2'], status=3, n=['stopped after 2 steps'])


@row('moves and END')
def _():
    run_ = '1{DOWN}2{DOWN}3{DOWN}{DOWN}5{DOWN}6{HOME}'
    for keys, at in [('{END}{DOWN}', 'A3'), ('{END}{DOWN}{END}{DOWN}', 'A5'), ('{END}{DOWN}' * 3, 'A6'),
                     ('{END}{DOWN}' * 4, 'A8192'), ('{END}{DOWN 2}', 'A4'), ('{PGDN}{END}{UP}', 'A6'),
                     ('{DOWN 3}{END}{UP}', 'A3'), ('{DOWN 3}{END}{DOWN}', 'A5'), ('{END}{RIGHT}', 'IV1'),
                     ('{END}{END}{DOWN}', 'A2'), ('{END}{PGDN}', 'A21'), ('{END 3}{DOWN}', 'A3'),
                     ('{END}{WINDOW}{DOWN}', 'A2'), ('{END}{BREAK}{DOWN}', 'A2'), ('{END}{HOME}', 'A6')]:
        sees(run_ + keys, p=at)
    sees('{GOTO}C5~/RFT~{HOME}{END}{HOME}', p='C5')     # a used cell
    sees('{GOTO}C1~/RFT~{HOME}{END}{RIGHT}', p='IV1')   # which isn't filled
    sees('A{END}~{DOWN}', p='A2')                       # END sets no mark in LABEL
    sees('{BIGRIGHT}', p='I1', l3='        B        C        D        E        F        G        H        I')
    sees('{BIGRIGHT}{BIGRIGHT}', p='Q1')
    sees('/WGC1~{BIGRIGHT}', p='BY1')
    sees('/WCS240~{BIGRIGHT}', p='B1')
    sees('/WCHA1.C1~{RIGHT}{LEFT}', p='D1')
    sees('/WCHA1.IV1~{RIGHT}{BIGRIGHT}', p='A1', l3='')
    sees('{DOWN 25}{UP 6}', p='A20', l4='   7')
    sees('{DOWN 25}{UP 20}', p='A6', l4='   6')


@row('entry and faults')
def _():
    for keys, line in [('1000000000~9', '91000000000'), ('+1*)~9', '+1*9)'), ('+A1A~9', '+9A1A'),
                       ('@FOO(1)~9', '9@FOO(1)'),
                       ('+1/~9', '+1/9'), ('+1+1000000000~9', '+1+91000000000'), ('+@ABS(1,2)~9', '+@ABS(1,29)'),
                       ('+1){RIGHT}9', '+19)'), ('.~9', '9.'), ('5~{EDIT}{EDIT}{CALC}{NAME}{ABS}{GOTO}', '5'),
                       ('5~{EDIT}{ESC}', ''), ('+a1*b2~{EDIT}', '+A1*B2')]:
        sees(keys, m='EDIT', l1=line, p='A1')
    for keys, t in [('ABC{EDIT}{LEFT}X~', "'ABXC"), ('{EDIT}/X~', "'/X"), ('5~{EDIT}{BS}~', '5'),
                    ('5~{EDIT}{HOME} ~', "' 5"), ('/WGLC^~ABC~', '^ABC'), ("'~", "'"), ('1.2345675~', '1.234568'),
                    ('-1.2345675~', '-1.234568'), ('ABCDEFGH~{EDIT}{BIGLEFT}X{BIGRIGHT}Y~', "'ABCXDEFGHY"),
                    ('A{CALC}{GOTO}{QUERY}{ALT A}{UNDO}~', "'A"), ('ABC{BS 3}', '')]:
        sees(keys, m='READY', t={'A1': t})
    sees('+{PGDN}', m='EDIT', p='A1')                   # no POINT, and the key doesn't move
    sees('5~{EDIT}{BS}{DOWN}', p='A2', v={'A1': 5})
    sees('1~/WGPE2{DOWN}', e=5, p='A1')
    sees('1~/WGPE2{DOWN}X{DOWN}{UNDO}~', m='READY', p='A1')
    sees('A' * 241 + '~{EDIT}', e=19)
    sees("'" + 'A' * 239 + '~{EDIT}', m='EDIT')
    sees('+' + '1+' * 119 + '{RIGHT}~', m='EDIT', t={'A1': ''})


@row('pointing')
def _():
    for keys, t in [('+{RIGHT}{ABS}+{RIGHT 2}~', '$B$1+C1'), ('+{RIGHT}{ABS 2}~', '+B$1'), ('+{RIGHT}{ABS 4}~', '+B1'),
                    ('@SUM({RIGHT}.{DOWN}{ABS})~', '@SUM($B$1..$B$2)'), ('+{RIGHT}.~', '+B1..B1'),
                    ('+{DOWN}.{DOWN}{BS}~', '+A1'), ('@IF({RIGHT}=1,{DOWN},{RIGHT 2})~', '@IF(B1=1,A2,C1)'),
                    ('1#AND#{RIGHT}#OR#{DOWN}~', '1#AND#B1#OR#A2'), ('/WCHB1~+{RIGHT}~', '+C1'), ('+{LEFT}~', '+A1')]:
        sees(keys, m='READY', t={'A1': t})
    sees('+{RIGHT}A{EDIT}{NAME}{PGDN}{HOME}{END}{BIGRIGHT}', m='POINT', l1='+B1')
    sees('@SUM({DOWN}.{DOWN}{DOWN}', m='POINT', l1='@SUM(A2..A4')
    sees('@SUM({DOWN}.{DOWN}{DOWN})', m='VALUE', l1='@SUM(A2..A4)')
    sees('+{DOWN}.{DOWN}{ESC}', m='POINT', l1='+A1')
    sees('+{DOWN 30}', l0='A1:', l1='+A31')             # the corner follows the pointer
    sees('+1{RIGHT}', p='B1', v={'A1': 1})


@row('answers')
def _():
    for keys, number in [('/REXYZ~', 4), ('/REA{BS}~', 1), ('/REABCDEFGHIJKLMNOP~', 1), ('/RE A1~', 1),
                         ('/REA1...B2~', 4), ('/RE$A$1~', 4), ('/REA8193~', 4), ('/RE)~', 4), ('{GOTO}ZZZ~', 4),
                         ('{GOTO}A{BS}~', 1), ('/WCS241~', 2), ('/WCS~', 2), ('/WCS 5~', 2), ('/WCS1.5~', 2),
                         ('/RFF16~', 2), ('/WGRI51~', 2), ('/RNC~', 3), ('/RNC X~', 3), ('/RNCABCDEFGHIJKLMNOP~', 3),
                         ('/RND~', 3), ('/RNDX~', 4), ('/FR~', 17), ('/FRABCDEFGHI~', 17), ('/FRA.PRN~', 17),
                         ('/FR.WK1~', 17), ('/FR-X~', 6), ('/PFX.WK1~', 17), ('/DFA1~1000000000~', 2),
                         ('/DSPA1~AA~', 2), ('/WCHXX~', 4), ('/PFX~OMT11~', 2)]:
        sees(keys, e=number)
    for keys, m_, line in [('{GOTO}B2~/RE', 'POINT', 'Erase B2..B2'), ('/REC', 'EDIT', 'Erase C'),
                           ('/REC{ESC}', 'EDIT', 'Erase'), ('/REC{ESC}{ESC}', 'READY', ''),
                           ('/RE{DOWN}{ESC}', 'POINT', 'Erase A1'), ('/REB2{UP}{DOWN}{PGUP}{PGDN}', 'EDIT', 'Erase B2'),
                           ('5~/M~', 'POINT', 'To A1'), ('5~/C~', 'POINT', 'To A1..A1'),
                           ('{GOTO}{ABS}', 'POINT', 'Goto $A$1'), ('/DFA1.A3~', 'EDIT', 'Start'),
                           ('/DT2A1.B3~C1~', 'POINT', 'Across A1'), ('/RFF2~', 'POINT', 'Range A1..A1'),
                           ('5~/FSX~/FS', 'EDIT', 'Save X.WK1'), ('5~/FSX~/FSY', 'EDIT', 'Save Y'),
                           ('5~/FSX~/FS{LEFT}Z', 'EDIT', 'Save Z'), ('5~/FSX~/FSY~/FRX~/FS', 'EDIT', 'Save Y.WK1')]:
        sees(keys, m=m_, l1=line)
    nm = '/RNCFOO~A1~/RNCBAR~A2~'
    for keys, line in [('/RE{NAME}', 'Erase BAR'), ('/RE{NAME 3}', 'Erase BAR'), ('/REc{NAME}', 'Erase FOO'),
                       ('/RE{NAME}{BS}X{NAME}', 'Erase FOO'), ('/RNC{NAME}', 'Create BAR'), ('/WCS{NAME}', 'Set-Width'),
                       ('{GOTO}{NAME 2}', 'Goto FOO')]:
        sees(nm + keys, m='EDIT', l1=line)
    sees('1{DOWN}2{HOME}/RNCA1~A2~/REA1~', v={'A1': None, 'A2': 2})     # an address before a name
    sees('/WCS0.9999999~', l0='A1: [W1]')


@row('menus')
def _():
    main_ = ['Worksheet', 'Range', 'Copy', 'Move', 'File', 'Print', 'Data', 'Quit']

    def line(names, at):
        return ''.join(('[%s]' if i == at else ' %s ') % x for i, x in enumerate(names)).rstrip()

    for keys, names, at, below in [
            ('/', main_, 0, 'Global  Insert  Delete  Column  Erase'), ('/{LEFT}', main_, 7, 'No  Yes'),
            ('/{END}{RIGHT}', main_, 0, 'Global  Insert  Delete  Column  Erase'), ('/{RIGHT 2}', main_, 2, ''),
            ('/R{RIGHT}~{ESC}{ESC}', main_, 0, 'Global  Insert  Delete  Column  Erase'),
            ('/wg{RIGHT 3}', ['Format', 'Label-Prefix', 'Column-Width', 'Recalculation', 'Protection'], 3,
             'Natural  Columnwise  Rowwise  Automatic  Manual  Iteration'),
            ('/QZ{UP}{EDIT}{CALC} 5', ['No', 'Yes'], 0, ''), ('/DQD', ['Cancel', 'Delete'], 0, ''),
            ('/DS', ['Data-Range', 'Primary-Key', 'Secondary-Key', 'Reset', 'Quit', 'Go'], 0, ''),
            ('/PFX~{RIGHT}', ['Range', 'Options', 'Go', 'Quit'], 1, 'Header  Footer  Margins  Pg-Length  Quit'),
            ('/PFX~OML5~', ['Left', 'Right', 'Top', 'Bottom', 'Quit'], 0, ''),
            ('/PFX~OML5~Q', ['Header', 'Footer', 'Margins', 'Pg-Length', 'Quit'], 0, ''),
            ('/PFX~{ESC}', ['File'], 0, ''),
            ('5~/FSX~/FS~', ['Cancel', 'Replace'], 0, ''), ('/FEX~', ['No', 'Yes'], 0, '')]:
        sees(keys, m='MENU', l1=line(names, at), l2=below)
    for keys in ['/{ESC}', '/Q~', '/WGF{BREAK}', '5~/FSX~/FS~{ESC}', '/FEX~N', '/DQDC', '/DSDA1~R', '/WEN',
                 '/PFX~OML5~QQQ']:
        sees(keys, m='READY', l1='')
    sees('/QYABC', k=3, m='READY')


@row('menus of what is built')
def _():
    left_out = menu.NOT_BUILT
    menu.NOT_BUILT = {'wi', 'wd.column', 'wd.row', 'r', 'move', 'f', 'd'}
    try:
        for keys, line, below in [
                ('/', '[Worksheet] Copy  Print  Quit', 'Global  Column  Erase'),
                ('/W{END}{LEFT}', ' Global [Column] Erase', 'Set-Width  Reset-Width  Hide  Display'),
                ('/RMFD{LEFT}{RIGHT}', '[Worksheet] Copy  Print  Quit', 'Global  Column  Erase'),
                ('/WDI{HOME}', '[Global] Column  Erase',
                 'Format  Label-Prefix  Column-Width  Recalculation  Protection'),
                ('/P{ESC}', '[Worksheet] Copy  Print  Quit', 'Global  Column  Erase')]:
            sees(keys, m='MENU', l1=line, l2=below)
    finally:
        menu.NOT_BUILT = left_out


@row('errors and their order')
def _():
    on = '/WGPE'
    two = '5{DOWN}6~{HOME}/FSX~'
    for keys, number in [
            (on + '/CA1.B2~IV8192~', 10), ('/MA1.A2~A8192~', 10), (on + '/MA1~B1~', 5), (on + '/WIR~', 5),
            ('{GOTO}A8192~1{HOME}/WIRA1.A2~', 9), (on + '{GOTO}A8192~/WIR~', 5), (on + '/DFA1.A2~1~0~2~', 11),
            (on + '/RUA1~/DFA1.A2~1~1~2~', 5), ('/DSG', 18), ('/DSDA1.B3~PA1~A~SC1~A~G', 20),
            (on + '/DSDA1.A3~PB1~A~G', 20), ('/DQIA1~CC1~OE1~E', 14), ('/DQDD', 14), ('{QUERY}', 14), ('{TABLE}', 12),
            (on + '/DT1A1.A3~A1~', 12), (on + '/DT1A1.B3~C1~', 5), ('/DT2A1.B3~C1~A2~', 13), (on + '/DDA1~A8192~', 10),
            ('/FCAX~', 6), (two + on + '{GOTO}A8192~/FCCX~', 10), ('5~/FSX~' + on + '{GOTO}A8192~/FCCX~', 5),
            ('/PFX~G', 22), ('/PFX~RA1~OML80~QQG', 23), ('5~/FSX~/FEX~Y/FRX~', 6),
            ("A~/RUA1~{DOWN}B~{HOME}" + on + '/RLRA1.A2~', 5)]:
        sees(keys, e=number)
    sees('A~/RUA1~{DOWN}5~{HOME}/WGPE/RLRA1.A2~', t={'A1': '"A'})       # the labels alone are written
    sees(on + '/RUA1~/DFA1.A2~1~1~1~', v={'A1': 1}, m='READY')
    sees('{GOTO}A8192~/RFT~{HOME}/WIR~', m='READY')                     # a format isn't filled
    for keys, calls, number in [('5~/FSX~', [1], 8), ('5~/FSX~', [2], 8), ('/FEX~Y', [1], 8), ('/FXFX~A1~', [1], 8),
                                ('/PFX~', [1], 8), ('/PFX~RA1~G', [2], 8), ('/PFX~G', [2], 22), ('/FCCX~', [1], 8)]:
        sees(keys, failing={'shelf': calls}, e=number)
    for keys, calc in [('/RLL~', 1), ('/RE~', 1), ('/DFA1.A2~1~-1~2~', 1), ('/WCS5~/RFT~/RNCX~~', 0), ('5~{CALC}', 0),
                       ('5~/WGRA/WGRM', 1), ('5~/FSX~/FRX~', 0), ('/FCCX~~', 0), ('/WIR~', 1)]:
        sees('/WGRM' + keys, l24=' ' * 50 + 'CALC' if calc else '')      # the stale mark of a content edit


@row('macro faults and nesting')
def _():
    for word, fault_ in [('{DOWN 1/0}', 'M4'), ('{DOWN 1,2}', 'M4'), ('{BREAK}', 'M3'), ('{ALT A}', 'M3'),
                         ('{UNDO}', 'M3'), ('{}', 'M3'), ('{BRANCH D3.D4}', 'M4'), ('{BRANCH $D$3}', 'M4'),
                         ('{DISPATCH E1}', 'M5'), ('{FOR A1,"x",3,1,D3}', 'M4'), ('{LET A1}', 'M4'),
                         ('{LET A1,2,3}', 'M4'), ('{PUT A1.C3,-1,0,7}', 'M4'), ('{CONTENTS A1,B1,0}', 'M4'),
                         ('{CONTENTS A1,B1,9,256}', 'M4'), ('{GETLABEL 5,A1}', 'M4'), ('{MENUBRANCH B1}', 'M5'),
                         ('{WAIT @ERR}', 'M4'), ('{INDICATE 5}', 'M4'), ('{BEEP 1}', 'M4'), ('/XI1', 'M3'),
                         ('/XLName~A1', 'M3'), ('/XGZZZ~', 'M4'), ('{RECALC A1,0,0}', 'M4'), ('{OPEN LOG,X}', 'M4'),
                         ('{OPEN LOG.WK1,W}', 'M4'), ('{READ 241,A1}', 'M4'), ('{SETPOS -1}', 'M4'),
                         ('{WRITE 5}', 'M4')]:
        macro_sees({'D1': word}, f=fault_ + ' at D1')
    macro_sees({'D1': 'ABC~', 'D2': '{ZZ}'}, f='M3 at D2', t={'A1': "'ABC"})
    sub = [('SUB', 'G1')]
    macro_sees({'D1': '{SUB 5}', 'G1': '{DEFINE A1,A2}'}, names=sub, f='M4 at G1')
    macro_sees({'D1': '{SUB 1}', 'G1': '{LET D1,"{SUB 7}"}{DEFINE A1:value}'}, names=sub, v={'A1': 7})
    macro_sees({'D1': '{SUB 5}', 'G1': '/RNDSUB~{DEFINE A1}'}, names=sub, f='M4 at G1')
    macro_sees({'D1': '{FOR A1,1,9,1,D3}', 'D3': '{SUB}', 'G1': '{FORBREAK}'}, names=sub, f='M4 at G1')
    macro_sees({'D1': '{LET A1,A1+1}{X}'}, names=[('X', 'D1')], f='M2 at D1', v={'A1': 32})
    macro_sees({'D1': '{LET A1,A1+1}{FOR B1,1,2,1,D1}'}, f='M2 at D1', v={'A1': 32})
    macro_sees({'D1': '{LET A1,A1+1}{IF A1<32}{X}', 'D2': '{FOR B1,2,1,1,C1}{LET C9,1}{FOR B1,1,1,1,C1}'},
               names=[('X', 'D1')],
               f='M2 at D2', v={'A1': 32, 'C9': 1})
    menu_ = {'D1': '{LET A1,A1+1}{MENUCALL F1}', 'F1': 'One', 'F3': '{BRANCH D1}'}
    macro_sees(menu_, keys='o' * 31, m='MENU', v={'A1': 32})
    macro_sees(menu_, keys='o' * 32, f='M2 at D1')
    sees('{DOWN 2}{ALT B}', f='M1 at A3')


def macros_end():
    """How macros go on and end."""
    sub = [('SUB', 'G1')]
    macro_sees({'D1': '{SUB}Y~', 'G1': 'X{RESTART}Z~'}, names=sub, t={'A1': "'XZ"})
    macro_sees({'D1': '{SUB}Y~', 'G1': 'X{QUIT}Z~'}, names=sub, m='LABEL', l1='X', l24='')
    macro_sees({'D1': '{BRANCH F8192}', 'F8192': '{IF 0}X~'}, m='READY', t={'A1': ''})
    macro_sees({'D1': '{SUB}Y~', 'F8192': '{IF 0}X~'}, names=[('SUB', 'F8192')], t={'A1': "'Y"})
    macro_sees({'D1': '{MENUCALL F8192}{LET A1,4}', 'F8192': 'a'}, keys='~', v={'A1': 4})
    macro_sees({'D1': '{FOR A1,1,3,1,D3}', 'D3': '{LET A1,5}{LET A2,A2+1}'}, v={'A1': 6, 'A2': 1})
    macro_sees({'D1': '{FOR A1,1,A2,1,D3}', 'A2': '=2', 'D3': '{LET A2,9}{LET A3,A3+1}'}, v={'A1': 3, 'A3': 2})
    macro_sees({'D1': '{FOR A1,1,3,1,D3}{LET A5,9}', 'D3': '{RESTART}{LET A2,A2+1}'}, v={'A1': 1, 'A2': 1, 'A5': None})
    macro_sees({'D1': '{ONERROR D3}{FOR A1,1,3,1,D5}', 'D5': '{IF A1=1}/FRNONE~', 'D3': '{LET B1,B1+7}'},
               v={'A1': 4, 'B1': 7})
    macro_sees({'D1': '{ONERROR D3,A2}{LET A1,1}', 'D3': 'X'}, before='/WGPE', m='LABEL', t={'A2': ''})
    macro_sees({'D1': '{ONERROR D3}/FRNONE~', 'D3': '/FRNONE~'}, e=6)
    macro_sees({'D1': '{ONERROR D3}{?}', 'D3': '{LET B1,9}'}, keys='{QUERY}', v={'B1': 9}, m='READY')
    macro_sees({'D1': '{LET D1,"abcdefghijklmnopqrstuvwxyzabcdef~"}', 'D2': 'X~'}, t={'A1': "'X"})
    macro_sees({'D1': '{LET D1,5}X~'}, m='READY', t={'A1': ''})
    macro_sees({'D1': '/RND\\A~{LET A1,1}'}, v={'A1': 1})
    macro_sees({'D1': '/WEY{LET A1,1}'}, v={'A1': None}, m='READY')


def macros_take():
    """What LET, GET and questions take."""
    for e_, t in [('foo', "'foo"), ('5:string', "'5"), ('5:value', '5'), ('1/0', '@ERR'), ('B1', '0'),
                  ('"a,b"', "'a,b"), ('foo bar:STRING', "'foo bar"), ('"x":string', '\'"x"'), (' foo ', "' foo "),
                  ('1000000000', "'1000000000")]:
        macro_sees({'D1': '{LET A1,%s}' % e_}, t={'A1': t})
    for key, t in [('a', 'a'), ('~', '~'), ('{~}', '~'), ('{ALT x}', '{ALT X}'), ('{DELETE}', '{DEL}'), ('{u}', '{UP}'),
                   ('{BREAK}', None), ('{UNDO}b', 'b')]:
        macro_sees({'D1': '{GET A1}'}, keys=key, t={'A1': '' if t is None else "'" + t}, m='READY')
    macro_sees({'D1': '{GETLABEL "N",A1}'}, keys="{ESC}{UP}X{ESC}'q~", t={'A1': "''q"})
    macro_sees({'D1': '{BREAKOFF}{GETLABEL "N",A1}'}, keys='A{BREAK}B~', t={'A1': "'AB"})
    macro_sees({'D1': '{BREAKOFF}{?}'}, keys='AB{BREAK}C', m='LABEL', l1='C')
    macro_sees({'D1': '{BREAKOFF}X{GET A1}'}, keys='{BREAK}', m='READY', l24=' ' * 67 + 'CMD')


def macros_among_keys():
    """Questions among keys, and screens that stand still."""
    macro_sees({'D1': '/WCS{GETLABEL "n",A9}7~'}, keys='zz~', l0='A1: [W7]', t={'A9': "'zz"})
    macro_sees({'D1': '+{RIGHT}{GET A9}~'}, keys='z', t={'A1': '+B1'})
    macro_sees({'D1': '{END}{LET B1,1}{DOWN}'}, p='A8192')
    macro_sees({'D1': '{END}{GET B1}{DOWN}'}, keys='x', p='A2')
    macro_sees({'D1': '{CONTENTS A1,B1}', 'B1': 'a\xe9b'}, t={'A1': "'a?b      "})
    macro_sees({'D1': '{PANELOFF}{DOWN 30}{GET A9}'}, l0='A1:', l4='  12')
    macro_sees({'D1': '{WINDOWSOFF}{DOWN 30}{GET A9}'}, l0='A31:',
               l4='   1' + ' ' * 27 + '{WINDOWSOFF}{DOWN 30}{GET A9}')
    macro_sees({'D1': '/{PANELOFF}R{GET A9}'}, m='MENU', l1='[Worksheet] Range  Copy  Move  File  Print  Data  Quit')


def macros_wait_and_read():
    """WAIT, and text files."""
    k = "{GOTO}D1~'{{}WAIT 31929.5{}}X~/RNC\\A~~{HOME}"
    base = sees(k).steps
    sees(k + '{ALT A}', clock=[(31929, 0)] * (base + 2) + [(31929, 43199), (31929, 43200)],
         s=base + 6, m='LABEL')
    lg = {'LOG.TXT': b'x' * 241 + b'\r\ny'}
    macro_sees({'D1': '{OPEN LOG,R}', 'D2': '{READLN A1}', 'D3': '{GETPOS A2}'}, files=lg, v={'A2': 240})
    macro_sees({'D1': '{OPEN LOG,R}', 'D2': '{READ 0,A1}', 'D3': '{GETPOS A2}'}, files=lg, t={'A1': "'"}, v={'A2': 0})
    macro_sees({'D1': '{FILESIZE A1}'}, before='/WGPE', e=5)
    r = macro_sees({'D1': '{OPEN L,W}', 'D2': '{WRITE "a"}', 'D3': '{OPEN M,W}', 'D4': '{WRITE "b"}'})
    eq(r.files, {'L.TXT': b'a'})


@row('macro runs')
def _():
    macros_end()
    macros_take()
    macros_among_keys()
    macros_wait_and_read()


@row('undo')
def _():
    many = ''.join('%d~' % i for i in range(1, 22))
    sees(many + '{UNDO}' * 20, v={'A1': 1}, m='READY')
    sees(many + '{UNDO}' * 21, v={'A1': 1}, e=21)
    sees('5~5~{UNDO}', v={'A1': None})                  # a command that changes nothing isn't kept
    sees('1~{RIGHT}2{DOWN}{UNDO}', p='B1', v={'A1': 1, 'B1': None})
    sees('1~/FRNONE~{UNDO}', e=6)
    sees('1~2~/RE{UNDO}~{UNDO}', v={'A1': 2})
    sees('+A1+1~{CALC}{CALC}{UNDO}{UNDO}', v={'A1': 1})
    sees('/WGRM1~{RIGHT}+A1~{LEFT}2~{CALC}{UNDO}', l24=' ' * 50 + 'CALC', v={'A1': 2, 'B1': 1})
    sees('1~/FSX~/WEY/FRX~{UNDO}{UNDO}', v={'A1': 1})
    macro_sees({'D1': '1~{DOWN}2~{DOWN}3~'}, keys='{UNDO}', v={'A1': None, 'A3': None}, p='A1')
    macro_sees({'D1': '1~{ZZ}'}, keys='{UNDO}~{UNDO}', v={'A1': None}, m='READY')
    macro_sees({'D1': '1~{GET A2}'}, keys='{UNDO}{BREAK}{UNDO}', v={'A1': None})
    sees('5~+B1~{UNDO}+C1~', words=['--count'], n=['evaluations 2'])


@row('words, notes and displays')
def _():
    for words, bad in [(['--count=1'], '--count=1'), (['--file', '-X'], '-X'), (['--file'], '--file'),
                       (['--steps='], ''),
                       (['--steps', '01'], '01'), (['--steps', '10000001'], '10000001'), (['--show', 'page'],
                       'page'), (['--'], '--'),
                       (['--steps', '5', '--steps', '6'], '--steps'), (['--gen=3', '--file=X'], '--file=X'), ([''], ''),
                       (['--file', '--count'], '--count'), (['--step', '5'], '--step'),
                       (['--steps', '0', '--bad'], '0'),
                       (['--file', 'A.PRN'], 'A.PRN'), (['--steps', '+5'], '+5')]:
        sees('A', words=words, status=1, k=0, n=['bad word: ' + bad])
    sees('}', words=['--count', '--gen=1'], status=4, n=['rows 1', 'C1 111', 'evaluations 2', 'bad key word at byte 0'])
    sees('AB', words=['--gen=1', '--steps=1', '--count'], status=3,
         n=['rows 1', 'C1 111', 'evaluations 2', 'stopped after 1 steps'])
    for keys, v in [('{GOTO}C1~/RE~', ''), ('{GOTO}C1~1/0~', 'ERR'), ('{GOTO}C1~@NA~', 'NA'), ("{GOTO}C1~'x y~",
                    'x y'), ('/WEY', '')]:
        sees(keys, words=['--gen=1'], n=['rows 1', 'C1 ' + v])
    sees('A', words=['--count'], failing={'displays': [[1]], 'notes': [2]}, status=8, n=['evaluations 0'])
    r = run(['--steps', '1'], 'AB', failing={'displays': [[27]]})       # fails in close: the status stays 3
    eq((r.status, len(r.failed), len(r.frames)), (3, 1, 1))
    r = run([], 'A{ESC}{ESC}')
    eq(r.per_frame, [(25, 2000), (27, 2006), (27, 2006)])               # A, and LABEL to READY
    r = run([], '/QY  }')
    eq((r.status, r.keys_taken, r.readings), (0, 3, 4))


@row('screens')
def _():
    for keys, line in [('X' * 100 + '~', 'X' * 72), ('"' + 'X' * 20 + '~', 'X' * 20), ('\\X~', 'X' * 9),
                       ('^AB~', '   AB'), ('"AB~', '      AB'), ('+"' + 'Y' * 15 + '"~', 'Y' * 15),
                       ('X' * 30 + "~{RIGHT}'~", 'X' * 9), ('X' * 30 + '~{RIGHT}/RFT~', 'X' * 30),
                       ('{GOTO}B1~9~{HOME}' + 'X' * 30 + '~/WCHB1~', 'X' * 30), ('/RFH~' + 'X' * 30 + '~', ''),
                       ('X' * 30 + '~{BIGRIGHT}', ''), ('/WCS100~\\AB~', 'AB' * 38), ('/WCS240~5~', '')]:
        sees(keys, l4=('   1' + line).rstrip())
    sees('/RUA1~/RFF2~~/WCS15~/WGPE-5~', l0='A1: (F2) U [W15] -5')
    sees('/RFF2~~/WCS12~/WGPE', l0='A1: (F2) PR [W12]')
    sees('A' * 100 + '~', l0=("A1: '" + 'A' * 100)[:72])
    sees('ABCDEFGHIJ' * 8, l1=('ABCDEFGHIJ' * 8)[1:])
    sees('/RNC' + 'ABCDEFGHIJ' * 8, l1=('Create ' + 'ABCDEFGHIJ' * 8)[8:])   # the prompt is part of what is cut
    sees('+A1~{END}', clock=[(31929, 59)], l24='01-Jun-87 00:00' + ' ' * 41 + 'CIRC  END')
    sees('{RIGHT 8}/WCS40~', l3='        E        F        G        H                       I')
    sees('1{RIGHT}2{RIGHT}3{LEFT 2}/WCHB1~{END}{RIGHT}', p='C1')
    sees('{RIGHT}2~/WCHB1~{HOME}{END}{RIGHT}', p='B1')  # END and an arrow don't look at the marks
