"""Keys that start macros, over small sheets whose cells hold them.

Some are made of random words, with keys that go through every room; others are small programs: loops, calls, macros
that write their own text, commands that fail and what catches them. A sheet is told by lines of `edits.Desk`."""
from ..model.fixed import read_decimal
from ..model.names import names_of
from ..model.session import VALUE_BEGINS
from .cases import Macros, any_case, is_read
from .text_keys import TextFiles
from .wait_keys import Waits

# what fails in a fresh sheet, or nearly so, and mostly by which message
FAILING = [b'/RE1+~', b'/WCS0~', b'/WCS2.5~', b'/RNC~', b'/RNDNONE~', b'/FRNONE~', b'/FS*~', b'/CA1.A9~A8190~',
           b'/MA1.B2~IV1~', b'/DFA1.A3~1~0~9~', b'{TABLE}', b'/DT1A1~B1~', b'/DT1A1.B3~A2~', b'{QUERY}', b'/DQE',
           b'/DQDD', b'/DQIA1.A3~CC1.C2~OE1.E2~E', b'/DSG', b'/DSDA1.A3~PF1~A~G', b'/FCCNONE~', b'/FENONE~Y',
           b'/WIRA8000.A8192~', b'/REA9999~', b'{GOTO}NOWHERE~', b'/DDA1~IV1~', b'/DFA1~x~', b'/RLLNONE~', b'/DSPA1~Q~',
           b'/FRA~', b'/FCCB~', b'/WIR~']
# keys that go through rooms: entries, lines that are edited, pointing, menus, prompts
ROOMS = [b'7~', b'label~', b'+A1+1~', b'+B1*2{DOWN}', b'@SUM(A1..B2)~', b'{EDIT}9~', b'{EDIT}{HOME}-{DEL}~',
         b'+{LEFT}{UP}*2~', b'+{RIGHT}.{DOWN}~', b'{GOTO}B3~', b'{GOTO}C5~x~', b'/RFF2~A1.B3~', b'/RFT~', b'/C~B5~',
         b'/CA1~C1.C4~', b'/MA1~F5~', b'/RE~', b'/REA1.A2~', b'/RVA1.B2~F1~', b'/RTA1.A3~F3~', b'/RLRA1.C3~',
         b'/WCS12~', b'/WGC7~', b'/WGRM', b'/WGRA', b'{CALC}', b'/WGRI3~', b'/RNCTOTAL~A1.A3~', b'/RNDTOTAL~',
         b'/RUA1.C3~', b'/WGPE', b'/WGPD', b'/FSB~', b'/FSA~R', b'/DFA1.A3~1~1~9~', b'/DFB1.B4~A~',
         b'/DSDA1.B3~PA1~D~G', b'/DQIA1.A4~CC1.C2~OF1~E', b'/DDA1.A3~B1.B2~', b'/DT1E1.F3~A1~', b'/WHELLO',
         b'/R{ESC}{ESC}', b'{END}{DOWN}', b'{HOME}', b'{PGDN}', b'{BIGRIGHT}', b'{END}', b'{NAME}', b'{ABS}', b'{BS}',
         b'{ESC}', b'{WINDOW}', b'{GRAPH}', b'/XQ', b'/Xa', b'1+~{ESC 2}', b'"text~', b'^mid{UP}', b'{DOWN 2}',
         b'{UP B1}', b'{RIGHT @CELLPOINTER("row")}', b'{DOWN A1}', b'/WCHC1~', b'/WCDA1.H1~', b'/WGFP1~']
# keys that move cells and so the macro's own text, and those that take the sheet away
SHIFTS = [b'/WIRA1~', b'/WIRD2~', b'/WDRD2~', b'/WDRA1~', b'/WICD1~', b'/WDCC1~', b'/MD1.D4~F1~', b'/MD2~D3~',
          b'/CD3~D2~', b'/RED3~', b'/RND\\A~', b'/RNDSUB~', b'/WEY', b'/FRA~', b'/FRB~', b'/RNR', b'/RNCSUB~E1~',
          b'/RVD1.D3~E1~']
UNFINISHED = [b'+A1', b'/', b'/RF', b'/WCS1', b'/C', b'{EDIT}', b'{GOTO}B', b'label', b'+{LEFT}', b'/RNC', b'1+~',
              b'/QN', b'/RFF', b'/D', b'/DQIA1.A4~', b'{END}', b'/FS']
# each is a fault by itself in a sheet as programs have it, or only just none
FAULTS = [b'{RECALC A1,0,0}', b'{RECALC TABLE,0,0.9}', b'{RECALC B1,0,50.9}', b'{CONTENTS A1,B1,0}',
          b'{CONTENTS A1,B1,0.5}', b'{CONTENTS A1,B1,1}', b'{CONTENTS A1,B1,240.9}', b'{CONTENTS A1,B1,241}',
          b'{CONTENTS A1,B1,9,255}', b'{CONTENTS A1,B1,9,-0.5}', b'{CONTENTS A1,B1,9,-1}', b'{PUT TABLE,1.9,2.9,7}',
          b'{PUT TABLE,-0.5,0,7}', b'{PUT TABLE,0,3,7}', b'{FOR A1,3,1,0,F1}', b'{FOR A1,1,1,-1,F1}', b'{LET A8192,1}',
          b'{LET TABLE,5}', b'{BRANCH IV8192}', b'{NOWORD}', b'{', b'}', b'{LET A1', b'/XI1', b'/XGA1', b'{BREAK}',
          b'{UNDO}', b'{ALT A}', b'{}', b'{LET}', b'{LET A1}', b'{LET A1,2,3}', b'{BRANCH}', b'{BRANCH A1,A2}',
          b'{BRANCH NONE}', b'{BRANCH $A$1}', b'{DISPATCH B5}', b'{DISPATCH C9}', b'{FOR A1,1,3,0,E1}',
          b'{FOR A1,1,"x",1,E1}', b'{FOR A1,1,3,E1}', b'{FORBREAK}', b'{DEFINE A1}', b'{DEFINE}', b'{IF}', b'{IF 1+}',
          b'{PUT A1.B2,2,0,7}', b'{PUT A1.B2,0,-1,7}', b'{PUT A1.B2,"x",0,7}', b'{BLANK}', b'{BLANK A1..}',
          b'{CONTENTS A1}', b'{CONTENTS A1,B1,0}', b'{CONTENTS A1,B1,9,256}', b'{ONERROR}', b'{ONERROR NONE}',
          b'{ONERROR A1,NONE}', b'{RECALC}', b'{RECALC A1,1+}', b'{RECALC A1,1,0}', b'{RECALCCOL A1,1,51}',
          b'{DOWN 1/0}', b'{DOWN 1,2}', b'{DOWN "x"}', b'{RETURN 1}', b'{QUIT 1}', b'{RESTART A1}', b'{GET}',
          b'{GET NONE}', b'{GETLABEL A1}', b'{GETLABEL 1,A1}', b'{GETNUMBER @NA,A1}', b'{GETNUMBER "x",NONE}',
          b'{LOOK}', b'{LOOK A1..B2}', b'{MENUBRANCH NONE}', b'{MENUBRANCH IV1}', b'{MENUCALL A1}', b'{? 1}', b'{WAIT}',
          b'{WAIT "x"}', b'{WAIT @NA}', b'{WAIT 1,2}', b'{WAIT 1}', b'{BEEP }', b'{BEEP 1}', b'{BEEP}', b'{INDICATE 1}',
          b'{INDICATE "a","b"}', b'{INDICATE @ERR}', b'{PANELOFF 1}', b'{PANELON }', b'{WINDOWSOFF A1}',
          b'{WINDOWSON 1}', b'{BREAKOFF 1}', b'{BREAKON ,}', b'{OPEN A,R}', b'{CLOSE}', b'{READLN A1}', b'{WRITE "x"}',
          b'{FILESIZE A1}', b'{SETPOS 0}', b'/XMA1~', b'/XLx~A1~', b'/XNx~A1~', b'{SUB', b'{NET PAY}', b'{AGAIN}',
          b'{FOR A1,1,2,1,D1}', b'{IF 1}{AGAIN}', b'/XCD1~']


# names of the programs, beside those that start them
NAMES = [(b'SUB', b'E1..E2'), (b'SUB2', b'F1'), (b'COUNT', b'A1'), (b'AGAIN', b'D1'), (b'TABLE', b'B1..C3')]
KNOWN = names_of([(name, span.decode()) for name, span in NAMES])


def content(text):
    """A cell's text: a number or a formula as it stands, and any other as a label."""
    spelled = text[0] in VALUE_BEGINS and (isinstance(read_decimal(text), int) or is_read(text, (0, 0), KNOWN))
    return text if spelled else b"'" + text


class Soup(Macros):
    """Sheets of macros of random words, and of keys for every room."""

    def word(self):
        """A word of a macro, or keys for a room."""
        r = self.r
        pick = r.randrange(10)
        if pick < 3:
            return r.choice(ROOMS)
        if pick == 3:
            return r.choice([lambda: r.choice(FAILING), lambda: r.choice(SHIFTS), lambda: r.choice(UNFINISHED),
                             lambda: b'{QUERY}', lambda: b'{TABLE}'])()
        while True:
            word = super().word()
            if b'@NOW' not in word.upper():
                return word


class Programs:
    """Small programs: cells with their texts, below the names that start and call them."""

    def __init__(self, r):
        self.r = r
        # the letters of the macros that are to be started, where any will do none
        self.starts = None

    def number(self):
        """A small number."""
        return b'%d' % self.r.randrange(1, 8)

    def counted(self):
        """A loop by BRANCH, with a count in A1."""
        r, n = self.r, self.number()
        step = r.choice([b'{LET A1,A1+1}', b'{LET COUNT,COUNT+2}', b'{PUT TABLE,0,0,B1+1}{LET A1,A1+1}',
                         b'{let a1;a1+1:value}', b'+A1+1{CALC}~{GOTO}A1~{EDIT}{CALC}~'])
        test = r.choice([b'{IF A1<' + n + b'}{BRANCH D1}', b'/XIA1<' + n + b'~/XGD1~', b'{IF A1>=' + n + b'}{QUIT}',
                         b'{IF @COUNT(A1..A2)<A1}{BRANCH D1}'])
        return {b'D1': step + r.choice([b'', b'{DOWN}', b'x~', b'{DOWN A1}']), b'D2': test,
                b'D3': r.choice([b'{BRANCH D1}', b'done~', b'{LET B2,A1*10}', b''])}

    def looped(self):
        """FOR, whose counter, bound and steps may change in it."""
        r = self.r
        step = r.choice([b'1', b'1', b'2', b'-1', b'0.5', b'B1', b'-0.75', b'0'])
        first, last = r.choice([(b'1', self.number()), (b'3', b'1'), (b'-1', b'B2'), (b'A1', b'5')])
        body = r.choice([b'{LET A2,A2+A1}', b'{LET A2,A2+A1}{IF A2>3}{FORBREAK}', b'{LET A1,A1+1}', b'{LET B2,1}{DOWN}',
                         b'x{DOWN}', b'{FOR B3,1,2,1,F1}', b'{RETURN}x', b'{RESTART}', b'{LET A1,"text"}',
                         b'{LET A1,@NA}', b'{BRANCH F1}', b'{BLANK A1}', b'{QUIT}', b'{FORBREAK}', b'/REA1~',
                         b'{IF A1=2}{RETURN}'])
        return {b'D1': b'{FOR A1,' + first + b',' + last + b',' + step + b',SUB}'
                + r.choice([b'', b'{LET C3,A1}', b'end~']), b'E1': body,
                b'E2': r.choice([b'', b'{LET C2,C2+1}', b'{DOWN}', b'/XR']), b'F1': b'{LET C1,C1+B3}',
                b'D2': r.choice([b'', b'{LET C2,"after"}'])}

    def rewritten(self):
        """Texts that the macro writes: of the cell that runs, before and behind the place, of the next, of what it
        calls."""
        r = self.r
        first = r.choice([b'{LET D1,"{LET A1,A1+1}{LET A1,A1*5}x~"}{LET A1,9}',
                          b'{LET D1,"~~~~~~~~~~~~~~~~~~~~~~~~~~~~~~~{DOWN}x~"}', b'{LET D2,"{LET A1,7}{BRANCH D3}"}',
                          b'{LET D1,5}y~', b'{LET E1,"{LET B2,4}"}{SUB}', b'{SUB}{LET E1,"{LET B2,4}"}{SUB}',
                          b'{BLANK D2}z~', b'{LET D2,D3}', b'{CONTENTS D2,D3}', b'{PUT D1.D3,0,1,"{DOWN}here~"}',
                          b'{DOWN B1}{LET D1,"{DOWN B2}{QUIT}"}', b'{GOTO}D2~{EDIT}{LEFT}{BS}9~', b'{GOTO}D2~/RE~',
                          b'/CD3~D2~', b'{LET D1,"x"}', b'{FOR A1,1,3,1,D2}', b'{GOTO}D1~abc~def~'])
        second = r.choice([b'{LET A2,1}', b"{LET D2,+\"{LET B2,\"&@STRING(A1,0)&\"}\"}{LET A1,A1+1}{BRANCH D2}",
                           b'{LET A1,A1+1}{LET D2,"{LET A2,A1}{IF A1<3}{BRANCH D1}"}', b'w~', b''])
        return {b'D1': first, b'D2': second, b'D3': r.choice([b'{LET B1,B1+1}', b'{DOWN}end~', b'{BRANCH E1}', b'']),
                b'E1': r.choice([b'{LET B2,1}', b'{LET E1,"v~"}{LET E2,"u~"}'])}

    def formulas(self):
        """Texts that formulas give, and that change with what they read."""
        r = self.r
        first = r.choice([b'+"{LET A1,A1+1}"&B1', b'+B1', b'@REPEAT("{DOWN}",A1+1)&"{LET A1,A1+1}{BRANCH D2}"',
                          b'+"{LET A1,"&@STRING(A2,0)&"}{LET A2,5}{LET C1,A2}"',
                          b'@IF(A1>2,"{QUIT}","{LET A1,A1+1}{BRANCH D1}")', b'@@("E1")', b'@INDEX(D2..E3,1,0)',
                          b'+"{LET B1,+""{RETURN}""}"', b'@CELL("contents",E1)&"~"', b'@MID(E1,0,A1*4)&"~"', b'+D2',
                          b'@IF(A1=0,"{LET A1,1}{LET C1,1}{LET C2,2}","{LET C3,3}{LET C1,9}"&B1)', b'+A1', b'@NA',
                          b'@CHOOSE(A1,"{LET A1,1}{BRANCH D1}","{LET A1,2}{BRANCH D1}","{QUIT}")'])
        return {b'D1': first, b'D2': r.choice([b'+"{LET C2,"&B1&"}"', b'{IF A1<3}{BRANCH D1}',
                                               b'{LET B1,"{BRANCH D3}"}{BRANCH D1}', b'next~']),
                b'D3': b'{LET C3,C3+1}',
                b'B1': r.choice([b'~', b'{QUIT}', b'x~', b'{BRANCH D2}', b'{LET B1,"{QUIT}"}{BRANCH D1}']),
                b'E1': r.choice([b'{LET A2,2}', b'abcd', b'{LET A1,A1+1}'])}

    def called(self):
        """Calls with arguments that DEFINE puts, one within another, and callers that are forgotten."""
        r = self.r
        items = [b'5', b'A1+2', b'"x,y"', b'text', b'@SUM(A1,B1)', b'', b'+"a"', b'1/0', b'(1,2)', b'B1']
        many = r.randrange(1, 4)
        given = b' ' + r.choice([b',', b';']).join(r.choice(items) for _ in range(many)) + b'}'
        place = lambda at: r.choice([b'B%d', b'B%d', b'C%d']) % (at + 1) + r.choice([b'', b':value', b':string',
                                                                                     b':VALUE', b':String'])
        define = b'{DEFINE ' + b','.join(place(at) for at in range(max(1, many
                                                                       + r.choice([0, 0, 0, 0, 0, 1, -1, -1])))) + b'}'
        again = b'{LET A1,A1+1}{IF A1<' + r.choice([b'3', b'40', b'31', b'32']) + b'}{SUB' + given
        body = r.choice([b'{LET A2,B1+B2}', b'{RETURN}x', b'{RESTART}', b'{SUB2 7}', b'{SUB2 7}',
                         b'{SUB2 A1}{LET C2,1}', b'{QUIT}', b'', b'{IF B1<3}{SUB 9}', b'{DEFINE C3}', b'/XR', again])
        start = r.choice([b'{SUB' + given, b'{SUB' + given, b'{sub' + given + b'{SUB' + given, b'{SUB}', b'/XCE1~',
                          b'{FOR A2,1,2,1,SUB}', b'{SUB2' + given])
        return {b'D1': start + r.choice([b'{LET C1,"back"}', b'y~', b'']),
                b'E1': r.choice([define + body, define + body, body, b'{LET D1,"{SUB 8,9}"}' + define]),
                b'E2': r.choice([b'', b'{LET B3,B3+1}']),
                b'F1': r.choice([b'{DEFINE C2:value}{LET C3,C2*2}', b'{DEFINE C2}', b'{RESTART}{LET C3,1}',
                                 b'{RESTART}x~', b'{RETURN}', b'{QUIT}', b'{FORBREAK}'])}

    def failing(self):
        """Commands that fail, caught once or not, with the message put or not."""
        r = self.r
        at = r.choice([b'{ONERROR D3}', b'{ONERROR D3,A2}', b'{ONERROR E1,B1}', b'{ONERROR D1,A2}', b'',
                       b'{ONERROR D3,D2}', b'{ONERROR D3,TABLE}', b'{ONERROR D2,A1}{ONERROR D3}'])
        fail = lambda: r.choice(FAILING) if r.randrange(3) else r.choice([b'{QUERY}', b'{TABLE}', b'/DSG', b'/WGPE5~',
                                                                          b'/WGPE{LET A1,5}', b'/WGPE{BLANK B1}',
                                                                          b'{FOR IV8192,1,3,1,E1}', b'/RNC~'])
        return {b'D1': at + r.choice([b'', b'/WGPE', b'x~', b'{LET C1,C1+1}']) + fail()
                + r.choice([b'', b'{LET C2,1}', b'~']),
                b'D2': r.choice([b'{LET C3,C3+1}', fail(), b'']),
                b'D3': r.choice([b'{LET C3,C3+1}', fail(), b'{ONERROR D3}' + fail(), b'/WGPD{LET B2,A2}', b'{RETURN}',
                                 b'{LET D3,"{QUIT}"}{BRANCH D1}']),
                                 b'E1': r.choice([b'{LET A1,9}', fail(), b'{ONERROR D2}' + fail()])}

    def faulty(self):
        """Words that are faults or just none, each in a cell of its own, here and in what is called; each is
        started."""
        r = self.r
        self.starts = [b'A', b'D', b'E', b'B']
        fault = lambda: any_case(r, r.choice(FAULTS)) if r.randrange(8) == 0 else r.choice(FAULTS)
        front = lambda: r.choice([b'', b'', b'', b'x~', b'{ONERROR E2,A1}', b'{LET A1,1}', b'/R'])
        calling = lambda: r.choice([b'{SUB}', b'{SUB 1}', b'{FOR A1,1,2,1,SUB}', b'{SUB2}',
                                    b'/XCE1~']) + b'{LET C3,C3+1}'
        cell = lambda: front() + fault() + r.choice([b'', b'y~']) if r.randrange(3) else calling()
        return {b'D1': cell(), b'D3': cell(), b'D5': cell(),
                b'E1': r.choice([fault(), b'{SUB2}{LET C1,C1+1}', b'{SUB2}{LET C1,C1+1}', b'{LET B1,2}' + fault()]),
                b'E2': r.choice([b'{LET B2,1}', b'']),
                b'F1': r.choice([fault(), b'{RESTART}{LET C2,1}', b'{RETURN}x', b'{FORBREAK}', b'{DEFINE C2}']),
                b'C9': r.choice([b'D2', b'NONE', b'E2', b'd1'])}

    def slashes(self):
        """The forms with /X: a loop by them, calls and returns, and an end."""
        r, n = self.r, self.number()
        test = lambda: r.choice([b'/XIA1<', b'/xia1<', b'/XIA1>', b'/XiA2<']) + n + b'~'
        after = lambda: r.choice([b'/XGD1~', b'/XGD3~', b'/xgSUB2~', b'/XQ', b'/xq', b'/XCE1~/XGD3~', b'/XCSUB~',
                                  b'/XR'])
        return {b'D1': r.choice([b'{LET A1,A1+1}', b'/XCE1~', b'/XCSUB~', b'/xcsub~']) + test() + after(),
                b'D2': r.choice([b'', b'/XCF1~', b'/XGD3~x~']) + r.choice([b'{LET C1,C1+1}', b'y{DOWN}'])
                + r.choice([b'', b'/XQ{LET C2,9}', b'/XGD3~']),
                b'D3': r.choice([b'{LET B2,A1}', b'/XIA1~{LET B2,2}/XQ', b'/XCF1~{LET B2,B2+1}'])
                + r.choice([b'', b'/XR', b'/XQx~']),
                b'E1': b'{LET A1,A1+1}' + r.choice([b'/XR', b'/XR{LET C2,C2+9}', b'/XIA1>1~/XR', b'/XCF1~/XR', b'/XQ',
                                                    b'']),
                b'E2': r.choice([b'{LET B3,B3+1}', b'{LET B3,B3+1}/XR', b'/XQ']),
                b'F1': r.choice([b'{LET A2,A2+1}/XR', b'/XR', b'{LET C3,1}', b'/XGE2~'])}

    def broken_off(self):
        """Loops, one within another, that FORBREAK leaves, and FORBREAK where no loop is the innermost."""
        r, n = self.r, self.number()
        inner = r.choice([b'{FOR B1,1,3,1,F1}', b'{FOR B1,1,3,1,F1}{LET C3,C3+1}', b'{SUB2}', b'{LET A2,A2+A1}'])
        leave = lambda: r.choice([b'{IF A1=2}{FORBREAK}', b'{IF A2>1}{FORBREAK}', b'{FORBREAK}{LET C1,9}',
                                  b'{forbreak}', b'{LET B2,A1}{FORBREAK}'])
        return {b'D1': b'{FOR A1,1,' + n + b',1,SUB}' + r.choice([b'{LET C1,"behind"}', b'{FORBREAK}',
                                                                  b'{FOR A2,1,2,1,F1}', b'x~']),
                b'E1': inner + r.choice([b'', leave()]), b'E2': r.choice([leave(), leave(), b'{LET C2,C2+1}', b'']),
                b'F1': r.choice([b'{IF B1=2}{FORBREAK}', b'{FORBREAK}', b'{LET B2,B2+B1}',
                                 b'{LET B3,B3+1}{IF B3>2}{FORBREAK}', b'{RESTART}{FORBREAK}']),
                b'D2': r.choice([b'', b'{LET C3,"next"}'])}

    def dispatched(self):
        """Places that a cell names, which change while the macro goes along them."""
        r = self.r
        place = lambda: r.choice([b'D3', b'd3', b'SUB', b'E2', b'F1', b'D2',
                                  b'AGAIN']) if r.randrange(8) else r.choice([b'$D$3', b'NONE'])
        by = r.choice([b'B1', b'C9', b'B2'])
        go = lambda: b'{' + r.choice([b'DISPATCH ', b'DISPATCH ', b'dispatch ',
                                      b'Dispatch ']) + (by if r.randrange(8) else b'A1') + b'}'
        named = r.choice([place(), place(), b'+"D"&@STRING(A1+2,0)', b'@IF(A1>1,"E1","D3")',
                          b'@CHOOSE(A1,"D3","SUB","F1")', b'+C3', b'3'])
        return {b'D1': r.choice([b'', b'{LET A1,1}', b'x~']) + go(), b'D2': b'{LET A2,A2+1}' + r.choice([b'', go()]),
                b'D3': b'{LET A1,A1+1}' + r.choice([b'', b'{IF A1<4}' + go(), b'{LET ' + by + b',"' + place() + b'"}'
                                                    + go()]),
                b'E1': b'{LET B3,B3+1}' + r.choice([b'', b'{LET ' + by + b',' + place() + b'}' + go(), b'{IF B3<3}'
                                                    + go()]),
                b'E2': r.choice([b'{LET C2,2}', b'{DOWN}y~']),
                b'F1': r.choice([b'{LET C1,C1+1}', b'{QUIT}', b'{BLANK ' + by + b'}' + go()]), by: named}

    def deep(self):
        """Calls and loops up to the deepest level and past it."""
        r = self.r
        deepest = r.choice([b'30', b'31', b'31', b'31', b'32'])
        deeper = r.choice([b'{SUB}', b'{SUB}', b'/XCE1~', b'{FOR B1,1,1,1,E1}', b'{SUB A1,B1}'])
        there = r.choice([b'{FOR B2,1,2,1,F1}', b'{FOR B2,2,1,1,F1}', b'{FOR B2,2,1,1,F1}', b'{FOR B2,1,2,-1,F1}',
                          b'{SUB2}', b'/XCF1~', b'{LET B3,"deep"}', b'{RESTART}{SUB2}', b'{FORBREAK}', b'{DEFINE B2}'])
        return {b'D1': r.choice([b'{SUB}', b'{BRANCH E1}', b'{FOR C1,1,2,1,E1}']) + b'{LET C2,"back"}',
                b'E1': b'{LET A1,A1+1}{IF A1<' + deepest + b'}' + deeper,
                b'E2': b'{IF A1=' + deepest + b'}' + there, b'E3': b'{LET A3,A3+1}', b'F1': b'{LET C3,C3+1}',
                b'A1': b'0'}

    def repeated(self):
        """Keys with numbers of repeats, which change while they are typed."""
        r = self.r
        number = lambda: r.choice([b'2', b'3', b'A1', b'B1', b'A1+1', b'5-@CELLPOINTER("row")', b'@CELLPOINTER("col")',
                                   b'@IF(@CELLPOINTER("row")<4,9,0)', b'1.9', b'0', b'-2', b'COUNT', b'@COUNT(A1..A3)'])
        names = [b'DOWN', b'RIGHT', b'UP', b'left', b'D', b'R', b'PGDN', b'BIGRIGHT', b'CALC']
        key = lambda: b'{' + r.choice(names) + b' ' + number() + b'}'
        steps = [b'LEFT ', b'BS ', b'BIGLEFT ', b'DEL ', b'HOME}{RIGHT ']
        edit = lambda: b'{EDIT}{' + r.choice(steps) + number() + b'}' + r.choice([b'7~', b'x~', b'{BS 2}~', b'~'])
        part = lambda: r.choice([key, key, key, edit, lambda: b'{LET A1,A1+1}', lambda: b'x~',
                                 lambda: b'/WCS{BS 2}1{BS B1}2~', lambda: b'{GOTO}A1~'])()
        return {b'D1': part() + part() + part(), b'D2': part() + r.choice([b'', b'{IF A1<3}{BRANCH D1}']),
                b'D3': part(),
                b'A1': r.choice([b'1', b'2', b'0'])}

    def argued(self):
        """Words with arguments of every kind that they take, and at the bounds."""
        r = self.r
        plain = lambda: r.choice([b'A1+1', b'5', b'"a,b"', b'@NA', b'@ERR', b'1/0', b'A2', b'B1', b'foo',
                                  b'@SUM(A1,B1)', b'"x"', b'', b'1000000000', b' 5', b'(1;2)', b'7:value', b'+"t"',
                                  b'@CELLPOINTER("row")', b'@CELL("type",A1)', b'COUNT', b'$COUNT', b'-1'])
        value = lambda: plain() + r.choice([b'', b'', b'', b':value', b':VALUE', b':string', b':STRING', b':Value',
                                            b':String'])
        place = lambda: r.choice([b'A1', b'A2', b'B1', b'COUNT', b'c1', b'TABLE', b'B3', b'C3'])
        col = lambda: r.choice([b'0', b'1', b'1.9', b'-0.5', b'2', b'A1'])
        row = lambda: r.choice([b'0', b'2', b'2.5', b'3', b'B2'])
        word = [lambda: b'{LET ' + place() + r.choice([b',', b';']) + value() + b'}',
                *[lambda: b'{LET ' + place() + b',' + value() + b'}'] * 4,
                lambda: b'{PUT ' + r.choice([b'TABLE', b'B1..C3', b'A1']) + b',' + col() + b',' + row() + b',' + value()
                + b'}',
                lambda: b'{CONTENTS ' + place() + b',' + place()
                + r.choice([b'', b',1', b',12', b',240', b',241', b',0', b',9,2', b',12,114', b',9,117', b',9,255',
                            b',9,256', b',9,118']) + b'}',
                lambda: b'{BLANK ' + r.choice([place(), b'A1..A2', b'TABLE', b'b1.b2']) + b'}',
                lambda: b'{DISPATCH ' + r.choice([b'C9', b'C9', b'A1', b'COUNT']) + b'}',
                lambda: b'{IF ' + r.choice([b'@NA', b'@ERR', b'"x"', b'B1', b'A2', b'0', b'0.000001', b'-1', b'A1=0',
                                            b'""']) + b'}{LET B3,B3+1}',
                lambda: b'{SUB ' + value() + b',' + value() + b'}',
                lambda: b'/XI' + r.choice([b'A1', b'0', b'"x"', b'@NA']) + b'~{LET C2,C2+1}',
                lambda: b'{RIGHT ' + r.choice([b'0', b'-1', b'A1', b'1.9', b'B2']) + b'}']
        cells = {b'D%d' % at: b''.join(r.choice(word)() for _ in range(r.randrange(2, 5))) for at in range(1, 7)}
        first, second = r.choice([b'A3', b'A3:value', b'A3:VALUE',
                                  b'A3:string']), r.choice([b'B3', b'B3:value', b'COUNT:String'])
        return {**cells, b'E1': b'{DEFINE ' + first + b',' + second + b'}',
                b'C9': r.choice([b'D2', b'd3', b'SUB', b'COUNT', b'NONE', b''])}

    def reckoned(self):
        """Manual, circles, and passes over a range by rows or by columns, whose formulas read each other both ways."""
        r = self.r
        word = lambda: r.choice([b'{RECALC ', b'{RECALCCOL ', b'{recalc ',
                                 b'{RecalcCol ']) + r.choice([b'A1..C3', b'TABLE', b'B1', b'A2..A3', b'B1..B3',
                                                              b'C3.A1'])
        until = lambda: r.choice([b'', b'', b'', b',B1>9', b',@TRUE', b',B1>9,3', b',0', b',0', b',B1<0', b',0,5',
                                  b',A1>3,50', b',@NA,2', b',"x"',
                                  b',B2,2.9', b',0,0', b',0,0.9', b',0,51', b',0,50.9', b',0,-1'])
        behind = r.choice([b'', b'{LET A1,A1+1}' + word() + b'}', b'{CALC}', word() + until() + b'}'])
        return {b'D1': r.choice([b'/WGRM', b'/WGRM', b'']) + b'{LET A1,A1+1}' + word() + until() + b'}' + behind,
                b'D2': r.choice([b'{IF B1<20}{BRANCH D1}', b'', b'{LET C1,B1}']),
                b'A3': r.choice([b'+B2*2', b'+C1+B1', b'+A1']),
                b'B1': r.choice([b'+B1+1', b'+A1*2', b'+B2+1', b'+C2', b'+A3+1']),
                b'B2': r.choice([b'+B1+A1', b'+C1*2', b'+C1+A3', b'@CELLPOINTER("row")']),
                b'B3': r.choice([b'+B2+B1', b'+C2', b'@SUM(B1..B2)', b'+A1']),
                b'C1': r.choice([b'+A1+1', b'+A3*2', b'+B3+1']), b'C2': r.choice([b'+A1+1', b'@@("B1")', b'+C1+B3'])}

    def typed(self):
        """Keys for every room, often unfinished where the macro ends."""
        r = self.r
        keys = lambda: b''.join(r.choice(ROOMS) for _ in range(r.randrange(1, 4)))
        return {b'D1': keys(), b'D2': r.choice([keys(), b'{LET A1,5}', r.choice(SHIFTS), b'']),
                b'D3': r.choice([r.choice(UNFINISHED), r.choice(UNFINISHED), keys(),
                                 b'{LET B1,@CELLPOINTER("address")}', b'/QY']), b'E1': keys()}

    def moved(self):
        """A macro that moves, deletes, retrieves or takes away what it is made of."""
        r = self.r
        return {b'D1': r.choice([b'', b'x~', b'{LET A1,1}']) + r.choice(SHIFTS) + r.choice([b'', b'{LET A2,2}', b'y~']),
                b'D2': r.choice([b'{LET A1,A1+2}', b'{SUB}', r.choice(SHIFTS), b'{FOR A3,1,2,1,E1}']),
                b'D3': r.choice([b'{LET B1,"third"}', b'z~', b'{BRANCH D1}', b'']), b'D4': b'{LET B2,4}',
                b'E1': r.choice([b'{LET B3,B3+1}', r.choice(SHIFTS)]), b'F1': b'{LET C1,"f"}'}

    def ended(self):
        """The run's end in a macro, the last row, and texts that end there."""
        r = self.r
        return {b'D1': r.choice([b'{LET A1,1}/QY', b'/QY', b'x~/QY{LET A1,2}', b'{BRANCH D8192}', b'{SUB}/Q{RIGHT}~',
                                 b'{IF 0}x~', b'{BRANCH IV8192}']),
                                 b'D8192': r.choice([b'{IF 0}x~', b'{LET A1,3}', b'y~', b'/XI0~z~']),
                b'IV8192': r.choice([b'{LET B1,4}', b'{BRANCH D2}', b'{GOTO}A1~']),
                b'D2': r.choice([b'/QN', b'{LET A2,A1}', b'/XQ']),
                b'E1': r.choice([b'{BRANCH D8192}', b'{LET B2,1}'])}

    def endless(self):
        """A loop that only the limit of steps ends."""
        r = self.r
        return {b'D1': r.choice([b'{BRANCH D1}', b'{LET A1,A1+1}{BRANCH D1}', b'{DOWN}', b'{DOWN 9999}',
                                 b'{FOR A1,1,9999,1,E1}', b'{RIGHT 1000000}',
                                 b'{LET A1,A1+1}x{ESC}']), b'D2': b'{UP}{BRANCH D1}',
                                 b'E1': r.choice([b'{LET B1,B1+A1}', b'{DOWN}', b''])}

    def program(self, last):
        """Any of these, with contents of other cells; the last one may end the run."""
        r = self.r
        many = [self.counted, self.looped, self.looped, self.rewritten, self.rewritten, self.formulas, self.formulas,
                self.called, self.called, self.failing, self.failing, self.failing, *[self.faulty] * 5, self.deep,
                self.deep, self.repeated, self.repeated, self.argued, self.argued, self.argued, *[self.called] * 2,
                *[self.rewritten] * 3, *[self.slashes] * 3, *[self.broken_off] * 3, *[self.dispatched] * 3,
                *[self.reckoned] * 4, self.typed, self.typed, self.moved, self.moved]
        self.starts = None
        made = r.choice(many + [self.ended] * 4 + [self.endless] if last else many)()
        for cell in (b'A1', b'A2', b'B1', b'B2', b'C3', b'A3'):
            if cell not in made and r.randrange(2):
                made[cell] = r.choice([b'0', b'1', b'2', b'3', b'-1', b'0.5', b'old', b'+A2+1', b'@NA', b'D3', b'SUB',
                                       b'+A1*2'])
        return made

    def sheet(self, last):
        """The lines of a sheet with a program."""
        return self.lines_of(self.program(last))

    def lines_of(self, cells):
        """The lines of a sheet with these cells."""
        r = self.r
        code = lambda: r.choice([b'-', b'-', b'-', b'-', b'127', b'130', b'2'])
        writes = [cell + b' ' + code() + b' ' + content(held)[:240] for cell, held in cells.items() if held]
        return [b':'] + [b'+' + span + b' ' + name for name, span in NAMES] + [b'x' + b'\t'.join(writes),
                                                                               b's' + r.choice([b'A', b'A', b'A', b'A',
                                                                                                b'M'])]


class MacroKeys:
    """Makes the keys; a scene is the lines of its sheet, and the keys that are then typed."""

    def __init__(self, menus):
        self.menus, self.typist, self.r = menus, menus.typist, menus.r
        self.soup, self.programs = Soup(self.r), Programs(self.r)
        self.waits, self.files = Waits(self.r), TextFiles(self.r)

    def start(self):
        """A key that starts a macro, seldom one that isn't there."""
        r = self.r
        letter = r.choice([b'A'] * 10 + [b'a', b'a', b'B', b'B', b'C', b'Z', b'D', b'D', b'e', b'E'])
        return b'{' + r.choice([b'ALT ', b'ALT ', b'Alt ', b'alt ']) + letter + b'}'

    def between(self):
        """What is typed before a macro, or behind one that may have ended in any room."""
        r = self.r
        return r.choice([lambda: b'', lambda: b'', lambda: b'~', lambda: b'{ESC}', lambda: b'{BREAK}',
                         lambda: b'{BREAK}', lambda: b'{HOME}', self.typist.arrow, self.typist.entry, lambda: b'{CALC}',
                         lambda: b'{DOWN 3}', lambda: b'{END}', lambda: b'5', lambda: b'/', self.menus.shifted,
                         self.menus.scene])()

    def macro(self, last):
        """A sheet with macros, and keys that start them; the last one may end the run."""
        r = self.r
        self.programs.starts = None
        waits = r.randrange(3) == 0 or self.typist.waits_alone
        if waits:
            sheet = self.programs.lines_of(self.waits.program())
        elif r.randrange(4) == 0:
            sheet = self.programs.lines_of({**{b'B1': r.choice([b'A', b'B', b'3', b'+A1*2'])}, **self.files.program()})
        else:
            sheet = self.soup.sheet() if r.randrange(4) == 0 else self.programs.sheet(last)
        names = [(b'D1..D3', b'\\A'), (b'E1', b'\\B'), (b'D8192', b'\\C'), (b'D3', b'\\D'), (b'D5', b'\\E')]
        sheet[1:1] = [b'+' + span + b' ' + name for span, name in names]
        keys = r.choice([b'', b'', b'', self.menus.at(r.choice([b'B1', b'C5', b'A20', b'D2', b'IV8192'])),
                         self.menus.done('wgp.enable')])
        if self.programs.starts:
            return sheet, keys + b''.join(b'{ALT ' + letter + b'}' + r.choice([b'{ESC}', b'{ESC}', b'{BREAK}'])
                                          for letter in self.programs.starts)
        if waits:
            return sheet, keys + b'{ALT A}' + self.waits.keys + r.choice([b'', b'{BREAK}', b'{ESC}~', self.start()
                                                                          + self.waits.keys]) + self.between()
        for _ in range(r.choice([1, 2, 3, 4])):
            keys += self.start() + self.between()
        return sheet, keys

    def wrong(self):
        """The key where it starts nothing: without a name, and in every room."""
        r = self.r
        room = r.choice([b'', b'5', b'x', b'/', b'/R', b'/RE', b'{EDIT}', b'+{LEFT}', b'/WCS', b'{GOTO}', b'{QUERY}',
                         b'{END}', b'1+~'])
        return self.between() + room + self.start() + r.choice([b'{ESC}', b'~', b'{ESC 3}', b'{BREAK}', b'{DOWN}'])
