"""Macros that ask, wait and switch, and the keys that come meanwhile.

Each program is cells with their texts, as those of `macro_keys.Programs`, and keys that are typed behind the one that
starts it: answers, keys that are passed over, BREAK, and what a person does in a room while the macro hands keys on."""

# lines that answer a question, good and bad ones, and keys that a line takes or passes over
LINES = [b'12', b'-3.5', b'+A1+1', b'@SUM(A1..B2)', b'text', b"'q", b'"right', b'1+', b'@NA', b'1/0', b'+"x"', b'',
         b'9999999999', b'A1', b'SUB', b'2 ', b'x' * 90, b'+B1', b'/x', b'{{}DOWN{}}', b'.5']
LINE_KEYS = [b'{LEFT}', b'{RIGHT}', b'{HOME}', b'{END}', b'{BS}', b'{DEL}', b'{ESC}', b'{BIGLEFT}', b'{BIGRIGHT}',
             b'{UP}', b'{DOWN}', b'{PGUP}', b'{PGDN}', b'{EDIT}', b'{ABS}', b'{NAME}', b'{CALC}', b'{GOTO}', b'{QUERY}',
             b'{TABLE}', b'{WINDOW}', b'{GRAPH}', b'{UNDO}', b'{ALT A}', b'{ALT B}', b'7', b'a']
# keys in a macro's menu
ITEM_KEYS = [b'{LEFT}', b'{RIGHT}', b'{RIGHT}', b'{HOME}', b'{END}', b'{UP}', b'{DOWN}', b'{UNDO}', b'{ALT A}',
             b'{CALC}', b'{EDIT}', b'{BS}', b'z', b'/', b'{RIGHT 9}', b'{LEFT 2}', b'{NAME}']
ITEMS = [b'Yes', b'No', b'Quit', b'yellow', b'New', b'Enter', b' blank', b'a' * 30, b'b' * 60, b'', b'Save', b'7up',
         b'{LEFT}', b'Yes']
# what is done by hand while a macro hands keys on, without Enter and with it
HANDS = [b'{DOWN}', b'{RIGHT 2}', b'5{DOWN}', b'label{RIGHT}', b'+A1{UP}', b'/', b'/W', b'/RE', b'/WCS12', b'/RFF2',
         b'{GOTO}B3', b'{EDIT}9{DOWN}', b'{END}', b'{END}{DOWN}', b'{PGDN}', b'{HOME}', b'{ESC}', b'{CALC}', b'{UNDO}',
         b'{ALT B}', b'{QUERY}', b'1+{DOWN}', b'/QN', b'/WGPE', b'+{LEFT}', b'{BREAK}', b'{ABS}', b'{NAME}']
SWITCHES = [b'{PANELOFF}', b'{PANELON}', b'{WINDOWSOFF}', b'{WINDOWSON}', b'{BREAKOFF}', b'{BREAKON}', b'{paneloff}',
            b'{WindowsOff}', b'{BEEP}']
# what a macro does while its screen may stand still
DEEDS = [b'{DOWN}', b'{RIGHT 9}', b'{GOTO}B30~', b'{PGDN}', b'{LET A1,A1+1}', b'{LET B2,"new"}', b'{PUT TABLE,0,1,7}',
         b'{BLANK A1}', b'7~', b'text{DOWN}', b'/WCS14~', b'/RFF2~A1..B2~', b'/REA1~', b'/WIRA1~', b'/WGC7~', b'{CALC}',
         b'{END}{DOWN}', b'{HOME}', b'/WGRM', b'{LET A2,1}', b'/', b'{ESC}', b'/R', b'5', b'{EDIT}', b'1+~{ESC 2}',
         b'/RNCTOTAL~A1..A3~', b'/WCHC1~']
FAILS = [b'/FRNONE~', b'/RNDNONE~', b'{QUERY}', b'/WCS0~', b'/DSG']
# what WAIT waits for
UNTIL = [b'@NOW', b'@NOW+@TIME(0,0,1)', b'@NOW+@TIME(0,0,3)', b'@NOW+@TIME(0,1,0)', b'A1', b'A1+@TIME(0,0,2)',
         b'@INT(@NOW)+@TIME(14,5,3)', b'@DATE(87,6,1)+@TIME(14,5,4)', b'@NOW-1', b'@NOW+1/86400', b'@NOW+0.000034',
         b'+A1+A2', b'0', b'-1', b'31929.586840', b'99999', b'@TODAY+@TIME(23,59,59)', b'@NA', b'@ERR', b'"x"', b'1/0']
TEXTS = [b'"WAIT"', b'"busy now"', b'', b'""', b'"a,b"', b'+"c"&B1', b'"a long text here"', b'B1', b'5', b'plain',
         b'"e":string', b'7:string']


class Waits:
    """Makes the programs; `keys` are typed behind the key that starts the last one made."""

    def __init__(self, r):
        self.r = r
        self.keys = b''

    def place(self):
        """A place, seldom none."""
        r = self.r
        return r.choice([b'NONE', b'$A$1', b'A1..B2', b' A1', b'IV8192',
                         b'A8193']) if r.randrange(20) == 0 else r.choice(
            [b'A1', b'A2', b'B1', b'B2', b'COUNT', b'TABLE', b'C3', b'a1', b'D1', b'D2', b'D3'])

    def deeds(self, most):
        """Some of what a macro does."""
        return b''.join(self.r.choice(DEEDS) for _ in range(self.r.randrange(most + 1)))

    def switched(self):
        """A switch, or nothing."""
        return self.r.choice([b'', b'', b'', self.r.choice(SWITCHES), b'{WINDOWSOFF}{PANELOFF}'])

    # ------------------------------------------------------------ questions

    def prompt(self):
        """A prompt's text, seldom none."""
        r = self.r
        return r.choice([b'"Name: "', b'Name', b'"Amount, net: "', b'+"N"&B1', b'""', b'B1', b'N:string', b'"'
                         + b'p' * r.choice([60, 75, 85]) + b'"', b'1', b'@NA'])

    def question(self):
        """A word that asks."""
        r, place = self.r, self.place()
        plain = r.choice([b'Name', b'Amount: ', b'', b'"quoted"', b'a,b', b'N}'])
        return r.choice([
            lambda: b'{GETLABEL ' + self.prompt() + b',' + place + b'}', lambda: b'{GETNUMBER ' + self.prompt() + b';'
            + place + b'}',
            lambda: b'{getlabel "N ",' + place + b'}', lambda: b'{GetNumber "N ",' + place + b'}',
            lambda: b'{GETNUMBER "N ",' + place + b'}',
            lambda: b'/XL' + plain + b'~' + place + b'~', lambda: b'/xn' + plain + b'~' + place + b'~',
            lambda: b'/XNN ~' + place + b'~',
            lambda: b'{GET ' + place + b'}', lambda: b'{get A1}', lambda: b'{LOOK ' + place + b'}',
            lambda: b'{GETLABEL "x"}', lambda: b'/XLName~'])()

    def line(self):
        """Keys that come while a line is asked for."""
        r = self.r
        out = b''.join(r.choice(LINE_KEYS) for _ in range(r.choice([0, 0, 0, 1, 2, 4]))) + r.choice(LINES)
        out += b''.join(r.choice(LINE_KEYS) for _ in range(r.choice([0, 0, 0, 1, 3])))
        return out + r.choice([b'~', b'~', b'~', b'~', b'~', b'\n', b'{BREAK}', b''])

    def asked(self):
        """Questions one behind another, what is done with the answers, and places for errors where a target is
        protected."""
        r = self.r
        self.keys = b''.join(self.line() for _ in range(r.choice([1, 2, 3, 4])))
        front = r.choice([b'', b'', b'{ONERROR D3,A2}', b'/WGPE{ONERROR D3}', b'/WGPE', b'x', b'{BREAKOFF}'])
        return {b'D1': front + self.switched() + self.question()
                + r.choice([b'', b'{LET B2,A1&"!"}', self.question(), b'{LET C1,A1+1}', b'x~']),
                b'D2': r.choice([self.question(), b'{IF A1>5}{BRANCH D1}', b'', b'{LET C2,"second"}']),
                b'D3': r.choice([b'{LET C3,C3+1}', self.question(), b'']),
                b'E1': self.question(), b'B1': r.choice([b"'more", b'5', b'+A1*2', b''])}

    def looped(self):
        """A question in a loop or in what is called, until an answer ends it."""
        r = self.r
        self.keys = b''.join(self.line() for _ in range(r.choice([2, 3, 4])))
        ask = r.choice([b'{GETNUMBER "Next: ",A1}', b'/XNNext: ~A1~', b'{GETLABEL "Next: ",A1}', b'{GET A1}',
                        b'{LOOK A1}'])
        return {b'D1': r.choice([b'{SUB}{IF A1>9}{BRANCH D1}', b'{FOR A3,1,3,1,SUB}', b'/XCE1~{LET C1,1}', ask
                                 + b'{IF A1<5}{BRANCH D1}']), b'E1': ask,
                b'E2': b'{LET A2,A2+A1}' + r.choice([b'', b'{RETURN}', b'{IF A1=12}{RESTART}'])}

    # ------------------------------------------------------------ menus

    def choice(self):
        """Keys that come while a menu is shown."""
        r = self.r
        out = b''.join(r.choice(ITEM_KEYS) for _ in range(r.choice([0, 0, 1, 2, 3])))
        return out + r.choice([b'~', b'~', b'y', b'N', b'q', b's', b'E', b'{ESC}', b'{BREAK}', b'7', b'a', b''])

    def items(self, col, row):
        """Cells of a menu from a cell on: its items, mostly with what stands below each and what each does."""
        r, cells = self.r, {}
        name = lambda at: (b'%c' % (65 + at) if at < 26 else b'I%c' % (65 + at - 234)) if at < 26 or at > 233 else b'H'
        for at in range(r.choice([1, 2, 3, 3, 4, 5, 7, 8, 9, 9])):
            if col + at > 255:
                break
            spot = lambda below: name(col + at) + b'%d' % (row + below)
            cells[spot(0)] = b"'" + r.choice(ITEMS) if r.randrange(12) else r.choice([b'5', b'+"Sum"', b'^Mid', b'\\-'])
            if r.randrange(4) and row < 8192:
                cells[spot(1)] = r.choice([b"'what it does", b"'" + b'long ' * 20, b'7', b'+"by formula"'])
            if row < 8191:
                cells[spot(2)] = b"'" + r.choice([b'{LET A1,%d}' % at, b'{LET A2,"chosen"}', b'x~', b'{BRANCH D3}',
                                                  b'{RETURN}', b'{QUIT}', b'{MENUBRANCH J1}', b'{LET B1,B1+1}'])
        return cells

    def menued(self):
        """A menu that is branched to or called, also at the edges of the sheet and as deep as calls go."""
        r = self.r
        first, col, row = r.choice([(b'J1', 9, 1)] * 6 + [(b'IV1', 255, 1), (b'IT1', 253, 1), (b'J8190', 9, 8190),
                                                          (b'J8191', 9, 8191), (b'J8192', 9, 8192), (b'NONE', 9, 1)])
        cells = self.items(col, row)
        self.keys = b''.join(self.choice() for _ in range(r.choice([1, 1, 2, 3])))
        word = r.choice([b'{MENUBRANCH ' + first + b'}', b'{MENUCALL ' + first + b'}', b'/XM' + first + b'~',
                         b'{menucall ' + first + b'}'])
        deep = r.choice([b'29', b'30', b'31'])
        start = r.choice([word, word, word, word + word, b'/WGPE{ONERROR D3}' + word, b'{FOR A3,1,2,1,E1}',
                          b'{LET J1,"Other"}' + word, b'x' + word])
        cells.update({b'D1': self.switched() + start + r.choice([b'{LET C1,"behind"}', b'', b'y~', b'{BRANCH D1}']),
                      b'D2': r.choice([b'', b'{LET C2,C2+1}']),
                      b'D3': b'{LET C3,C3+1}', b'E1': r.choice([word, word + b'{LET B2,1}', b'{LET A1,A1+1}{IF A1<'
                                                                + deep + b'}{SUB}'])})
        if r.randrange(8) == 0:
            cells.update({b'D1': b'{SUB}{LET C2,"back"}', b'E1': b'{LET A1,A1+1}{IF A1<' + deep + b'}{SUB}',
                          b'E2': b'{IF A1=' + deep + b'}' + word, b'A1': b'0'})
            self.keys = b'~' + self.keys
        return cells

    # ------------------------------------------------------------ keys that are handed on

    def handed(self):
        """?, in every room, with Enter, BREAK and macros' keys among what is done."""
        r = self.r
        hand = lambda: b''.join(r.choice(HANDS) for _ in range(r.choice([0, 1, 1, 2, 3])))
        self.keys = b''.join(hand() + r.choice([b'~', b'~', b'~', b'{BREAK}', b'']) for _ in range(r.choice([1, 2, 3])))
        front = r.choice([b'', b'', b'5', b'label', b'/', b'/RE', b'/WCS', b'{GOTO}', b'{EDIT}', b'+{LEFT}', b'{END}',
                          b'{BREAKOFF}', b'{BREAKOFF}/', b'{PANELOFF}', b'{WINDOWSOFF}'])
        return {b'D1': front + r.choice([b'{?}', b'{?}~', b'{?}{?}', b'{?}{LET A1,A1+1}'])
                + r.choice([b'', b'{LET B1,"on"}', b'x~', b'~']),
                b'D2': r.choice([b'{?}~', b'{DOWN}', b'{IF A1<3}{BRANCH D1}', b'']), b'E1': b'{LET C3,9}'}

    # ------------------------------------------------------------ switches

    def frozen(self):
        """Areas that stand still under moves, writes, commands, menus, errors and questions, and are let go again."""
        r = self.r
        part = lambda: r.choice([lambda: r.choice(SWITCHES), lambda: r.choice(SWITCHES[:4]), lambda: self.deeds(2),
                                 lambda: self.deeds(2), lambda: r.choice(FAILS),
                                 lambda: b'{INDICATE ' + r.choice(TEXTS) + b'}', lambda: b'{?}',
                                 lambda: b'{GETLABEL "N ",A1}', lambda: b'{MENUBRANCH J1}'])()
        self.keys = r.choice([b'', b'~', b'{DOWN}~', b'ab~~', b'{ESC}', b'{BREAK}', b'{DOWN}{BREAK}',
                              b'{ESC}{DOWN 25}'])
        return {b'D1': r.choice([b'', b'{ONERROR D3,A2}', b'{WINDOWSOFF}', b'{PANELOFF}', b'{WINDOWSOFF}{PANELOFF}'])
                + part() + part() + part(), b'D2': part() + part(),
                b'D3': r.choice([part(), b'{LET C3,C3+1}', b'{QUIT}', b'']), b'E1': part() + part(), b'J1': b"'Go",
                b'K1': b"'Stop", b'J2': b"'on", b'J3': b"'{LET A3,1}",
                b'K3': b"'{QUIT}"}

    def indicated(self):
        """Texts in the mode's place, which outlive the macro, and show over every mode."""
        r = self.r
        word = lambda: b'{' + r.choice([b'INDICATE', b'indicate']) + r.choice([b' ' + r.choice(TEXTS), b'', b' '
                                                                               + r.choice(TEXTS)]) + b'}'
        self.keys = r.choice([b'', b'5{BS}', b'/{ESC}', b'{QUERY}~', b'~', b'{EDIT}{ESC 2}'])
        return {b'D1': word() + r.choice([b'', b'x', b'/', b'{QUERY}', b'{QUIT}', b'{?}', b'{GET A1}']),
                b'D2': r.choice([b'', word(), self.deeds(2)]), b'E1': word(),
                b'B1': b"'b"}

    def unbroken(self):
        """BREAK at each word that waits, where it is switched off or on again, and behind a macro that ended without
        it."""
        r = self.r
        wait = lambda: r.choice([b'{?}', b'{GET A1}', b'{GETLABEL "N ",A1}', b'{GETNUMBER "N ",A2}', b'{MENUBRANCH J1}',
                                 b'{MENUCALL J1}', b'/XLN ~A1~', b'5{?}', b'/W{?}'])
        keys = lambda: r.choice([b'{BREAK}', b'{BREAK}', b'{BREAK}', b'ab', b'~', b'{RIGHT}', b'{ESC}', b'{UNDO}'])
        self.keys = b''.join(keys() for _ in range(r.randrange(1, 7)))
        return {b'D1': r.choice([b'{BREAKOFF}', b'{BREAKOFF}', b'', b'{BREAKOFF}{BREAKON}', b'{breakoff}{SUB}'])
                + wait() + r.choice([b'{LET A3,A3+1}', b'', b'{BREAKON}' + wait()]),
                b'D2': r.choice([wait(), b'{LET B2,2}', b'{BREAKON}' + wait()]), b'E1': wait(), b'J1': b"'Go",
                b'K1': b"'ab", b'J3': b"'{LET B1,1}", b'K3': b"'{LET B1,2}"}

    # ------------------------------------------------------------ texts that change

    def rewritten(self):
        """Words that wait in texts that their own answers, or formulas, write anew."""
        r = self.r
        self.keys = b''.join(r.choice([self.line, self.choice])() for _ in range(r.choice([1, 2, 3])))
        first = r.choice([b'{GETLABEL "T ",D1}{LET A2,1}', b'{GETLABEL "T ",D2}', b'{GET D1}{LET B1,1}', b'{LOOK D1}x~',
                          b'{LET D2,"{GET A1}{LET B1,9}"}', b'{GETNUMBER "N ",D2}',
                          b'{MENUBRANCH J1}', b'{WAIT 1}{LET D1,"{WAIT 2}{LET A1,3}"}', b'{LET J1,"New"}{MENUCALL J1}'])
        return {b'D1': first, b'D2': r.choice([b'{LET A2,2}', b'+"{GETLABEL ""P ""&B1&"",A1}"',
                                               b'@IF(A1>2,"{GET A2}","{GETNUMBER ""N "",A1}{BRANCH D2}")', b'']),
                b'J1': r.choice([b"'Go", b'+"Go"', b"'{LET A1,1}"]), b'J2': b'+"below "&@STRING(A1,0)',
                b'J3': r.choice([b"'{LET J1,5}{MENUBRANCH J1}", b"'{LET A1,1}"]), b'E1': b'{GET E1}'}

    # ------------------------------------------------------------ a stated clock

    def until(self):
        """WAIT for what mostly comes."""
        r = self.r
        return b'{' + r.choice([b'WAIT', b'WAIT', b'wait']) + b' ' + r.choice(UNTIL[:10] if r.randrange(3)
                                                                              else UNTIL) + b'}'

    def timed(self):
        """WAIT while a clock goes on, stands, is set back or can't be read, in loops, in what is called, between
        questions and where the screen stands still; its number may be written anew meanwhile, and so may its own
        text."""
        r = self.r
        self.keys = r.choice([b'', b'', self.line(), self.choice(), b'{BREAK}', b'12~~', b'{DOWN}~', b'{CALC}~'])
        part = lambda: r.choice([self.until, self.until, self.until, lambda: self.deeds(1), lambda: r.choice(SWITCHES),
                                 self.question, lambda: b'{?}',
                                 lambda: b'{LET A1,@NOW}', lambda: b'{RECALC A1..C3}', lambda: b'{INDICATE '
                                 + r.choice(TEXTS) + b'}'])()
        again = r.choice([b'', b'', b'{LET A3,A3+1}{IF A3<3}{BRANCH D1}', b'{SUB}', b'{FOR A3,1,2,1,SUB}',
                          b'{LET B1,@NOW}', b'{MENUBRANCH J1}'])
        return {b'D1': r.choice([b'', b'', b'{ONERROR D3,A2}', b'{BREAKOFF}', b'/WGRM', b'{WINDOWSOFF}{PANELOFF}',
                                 b'{LET A1,@NOW}']) + self.until() + part(), b'D2': part() + again,
                b'D3': r.choice([b'{LET C3,C3+1}', self.until(), b'', b'+"{WAIT "&@STRING(A1,6)&"}{LET C2,9}"',
                                 b'@IF(@NOW>A1,"{LET B3,1}","{WAIT @NOW+0.00002}")']),
                b'E1': self.until() + part(), b'A1': r.choice([b'@NOW', b'+@NOW+@TIME(0,0,2)', b'31929.586840', b'1',
                                                               b'text']),
                b'A2': r.choice([b'0.00002', b'@TIME(0,0,1)', b'-1', b'']), b'J1': b"'Go",
                b'K1': b'+"at "&@STRING(@NOW,4)', b'J3': b"'" + self.until(),
                b'K3': b"'" + self.until() + b'{QUIT}'}

    def program(self):
        """Any of these, by its cells."""
        r = self.r
        return r.choice([self.asked] * 4 + [self.looped] * 2 + [self.menued] * 4 + [self.handed] * 3 + [self.frozen] * 5
                        + [self.indicated] * 2 + [self.unbroken] * 3
                        + [self.rewritten] * 2)()
