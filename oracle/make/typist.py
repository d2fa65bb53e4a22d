"""Random key lists, made of what the program has built, with the program's words before them and the folder in which
they are typed. WITHOUT and the makers of Typist and MenuKeys grow with the program. No formula asks for the moment."""
from ..model.keys import typed
from ..model.names import Names
from ..model.session import VALUE_BEGINS
from .cases import Texts, WORDS, is_read
from .data_keys import DataKeys, file_of
from .files import file_for_runs
from .macro_keys import MacroKeys
from .menu_keys import FILES, MenuKeys, SPELLED
from .runs import is_of_shelf
from .text_keys import some_files as text_files

WITHOUT = {b'NOW'}
NO_NAMES = Names()


# words that are refused
BAD_WORDS = [['--show'], ['--show', 'page'], ['--steps', '0'], ['--steps=10000001'], ['--count=1'], ['keys'],
             ['--count', '--count'], ['--steps'], ['--show=last', '--show', 'last'], ['--steps='], ['--file'],
             ['--file='], ['--file', '-A'], ['--file=A.PRN'], ['--file', 'TOO_LONG9'], ['--file=A', '--file', 'B'],
             ['--file', 'A/B'], ['--file', '../A'], ['-file', 'A'], ['A.WK1'], ['--file', '--count'],
             ['--count', '--file=a b'], ['--gen'], ['--gen='], ['--gen=0'], ['--gen', '8001'], ['--gen=1', '--gen=2'],
             ['--gen=3', '--file=A'], ['--file', 'A', '--gen', '3'], ['--strict=1'],
             ['--strict', '--count', '--strict'], ['caf\udce9', 'keys'], ['--file', '\udcff'],
             ['--count', '--show=\udcc4x', 'keys'], ['first', '\udcff']]

# files of sheets that were made for keys
SHEETS = ['SHEET', *('SHEET%d' % number for number in range(2, 9))]


class Typist:
    """Makes key lists, the words before them and the folder in which they are typed: all sheets are of macros, or of
    those that wait, where these alone are asked for."""

    def __init__(self, r, macros_alone=False, waits_alone=False, strict=False):
        self.r, self.macros_alone, self.waits_alone, self.strict = r, macros_alone or waits_alone, waits_alone, strict
        self.texts = Texts(r, 3, 5, False, [], without=WITHOUT)
        self.menus = MenuKeys(self)
        self.data, self.macros = DataKeys(self.menus), MacroKeys(self.menus)
        self.folder = self.some_files()
        self.menus.there = {name[:-4].encode() for name in self.folder if is_of_shelf(name, ['WK1'])}
        self.menus.reports = {name[:-4].encode() for name in self.folder if is_of_shelf(name, ['PRN'])}
        # the file that the run begins with, where keys were made for it, and whether a macro may run
        self.opened, self.may_run = None, False

    def some_files(self):
        """What the folder holds, by its names: files, and None for a folder; a file in small letters is another one."""
        r, out = self.r, {}
        if r.randrange(4) == 0:
            return out
        for name in r.sample(FILES, r.choice([1, 2, 2, 3])):
            out[name.decode() + '.WK1'] = file_for_runs(r)
        if r.randrange(10) == 0:
            out[r.choice(FILES).decode() + '.WK1'] = None
        if r.randrange(6) == 0:
            out[r.choice(FILES).decode() + '.PRN'] = r.choice([b'', b'a report', b'a report', None])
        if self.macros_alone or r.randrange(4) == 0:
            out.update(text_files(r))
        if r.randrange(6) == 0:
            out[r.choice(['a.wk1', 'B.wk1', 'C', 'A.TXT', 'A.WK1.old'])] = b'other'
        return out

    typed = staticmethod(typed)

    def arrow(self):
        """An arrow, with or without a number of repeats."""
        r = self.r
        name = r.choice([b'UP', b'DOWN', b'LEFT', b'RIGHT', b'DOWN', b'RIGHT', b'u', b'd', b'l', b'r', b'Down'])
        count = b'' if r.randrange(4) else b' %d' % r.choice([1, 2, 3, 7, 8, 19, 20, 21, 30, 100])
        return b'{' + name + count + b'}'

    def value(self):
        """A line that spells a number or a formula."""
        while True:
            text = self.texts.tree(self.r.choice([0, 1, 1, 2, 3]))
            if text[:1] not in (b'%c' % byte for byte in VALUE_BEGINS):
                text = b'+' + text
            if b'@NOW' not in text and len(text) <= 240 and is_read(text, (0, 0), NO_NAMES):
                return text

    def label(self):
        """A line that spells a label."""
        r = self.r
        while True:
            size = r.choice([0, 1, 3, 8, 9, 10, 30, 75, 80, 200, 245])
            text = r.choice([b'', b"'", b'"', b'^', b'\\', b'|']) + (
                r.choice(WORDS) if r.randrange(2) else bytes(r.choice(range(32, 256)) for _ in range(size)))
            if text and text[0] not in VALUE_BEGINS and text[:1] != b'/':
                return text

    def finish(self):
        """A key that finishes a line."""
        r = self.r
        return r.choice([b'~', b'~', b'~', b'\n', b'{UP}', b'{DOWN}', b'{LEFT}', b'{RIGHT}', b'{PGDN}', b'{PGUP}',
                         b'{HOME}', b'{BIGRIGHT}'])

    def entry(self):
        """A line and the keys that finish it; an arrow behind an operator begins to point."""
        text = self.value() if self.r.randrange(3) else self.label()
        return self.typed(text) + (self.finish() if self.r.randrange(2) else self.arrow())

    def moving(self):
        """A key that moves the pointer by more than a cell."""
        r = self.r
        name = r.choice([b'PGUP', b'PGDN', b'BIGLEFT', b'BIGRIGHT', b'HOME', b'PgDn', b'bigright'])
        return b'{' + name + (b'}' if r.randrange(3) else b' %d}' % r.choice([1, 2, 5, 40, 420]))

    def end(self):
        """END, and mostly a key that it waits for."""
        r = self.r
        return b'{END}' + r.choice([b'{UP}', b'{DOWN}', b'{LEFT}', b'{RIGHT}', b'{HOME}', b'{END}', b'{PGDN}',
                                    b'{DOWN}', b'{RIGHT}', b'x~', b'~'])

    def line_keys(self):
        """Keys that go through a line that is edited."""
        r = self.r
        names = [b'LEFT', b'RIGHT', b'BIGLEFT', b'BIGRIGHT', b'HOME', b'END', b'DEL', b'BS', b'EDIT', b'ABS']
        part = lambda: b'{' + r.choice(names) + b'}' if r.randrange(3) else self.typed(r.choice([b'7', b'1', b'+A1',
                                                                                                 b'(', b')', b'x',
                                                                                                 b'*2', b"'"]))
        return b''.join(part() for _ in range(r.randrange(6)))

    def leaving(self):
        """Keys that end what is typed: it is finished or given up."""
        r = self.r
        return r.choice([b'~', b'~', b'{DOWN}', b'{UP}', b'{PGDN}', b'{ESC}{ESC}', b'{BREAK}', b'{HOME}{RIGHT}~'])

    def edited(self):
        """The pointer's cell, or a line that was begun, is edited."""
        r = self.r
        front = b'' if r.randrange(2) else self.typed(self.value() if r.randrange(2) else self.label())
        return front + b'{EDIT}' + self.line_keys() + self.leaving() + r.choice([b'', b'{ESC}{ESC}'])

    def faulty(self):
        """A line that may spell nothing, which goes to EDIT, and what is then done."""
        r = self.r
        text = bytearray(self.value())
        for _ in range(r.randrange(1, 3)):
            at = r.randrange(len(text) + 1)
            text[at:at + r.randrange(2)] = r.choice([b'', b')', b'(', b'+', b',', b'#', b'Q', b'9999999999', b'"', b'@',
                                                     b'.'])
        text = bytes(text)
        if b'@NOW' in text.upper() or text[:1] not in (b'%c' % byte for byte in VALUE_BEGINS):
            return b'1+~{ESC}{ESC}'
        return self.typed(text) + self.finish() + self.line_keys() + self.leaving() + b'{ESC}{ESC}{BREAK}'

    def pointing(self):
        """Keys that steer a reference."""
        r = self.r
        part = lambda: r.choice([self.arrow, lambda: b'.', lambda: b'{ABS}',
                                 lambda: r.choice([b'{ESC}', b'{BS}', b'{HOME}', b'{NAME}'])])()
        return b''.join(part() for _ in range(r.randrange(1, 5)))

    def pointed(self):
        """A value whose references are pointed at."""
        r = self.r
        out = self.typed(r.choice([b'+', b'-(', b'@SUM(', b'1+', b'+A1*', b'@MAX(A1,', b'@IF(A1=', b'#NOT#']))
        for _ in range(r.randrange(1, 4)):
            out += self.arrow() + self.pointing() + r.choice([b'+', b'*', b',', b')', b'-', b'^', b'x', b'&'])
        if r.randrange(8) == 0:
            out += b'1' * r.choice([200, 225, 236]) + b'+' + self.arrow()
        return out + r.choice([b'~', b')~', b'{ESC}{ESC}~', b'{BREAK}', b'2~']) + r.choice([b'', b'{ESC}{ESC}{BREAK}'])

    def goto(self):
        """GOTO with an answer that is typed or pointed at, good or not."""
        r = self.r
        typed = lambda: self.typed(r.choice([b'A1', b'B7', b'C3', b'IV8192', b'J40', b'b2..c9', b'A1.B2', b'Z100',
                                             b'A0', b'IW1', b'NONAME', b'1+', b'A1..', b'', b'A$1', b'N0 NAME',
                                             b'A8193', b'TOTAL', b'rate', b'NET PAY']))
        answer = r.choice([typed, typed, typed, typed, self.pointing, self.pointing, self.menus.by_name])()
        return b'{GOTO}' + answer + r.choice([b'~', b'~', b'~', b'{ESC}{ESC}', b'{BREAK}',
                                              b'{ESC}A3~']) + r.choice([b'', b'{ESC}', b'~'])

    def other(self):
        """A key that recalculates, or is passed over somewhere."""
        r = self.r
        return r.choice([b'{CALC}', b'{calc}', b'~', b'\n', b'{WINDOW}', b'{GRAPH}', b'{NAME}', b'{ABS}', b'{DEL}',
                         b'{BS}', b'{ESC}', b'{BREAK}', b'{QUERY}', b'{TABLE}', b'{UNDO}'])

    def part(self):
        """Keys of one kind."""
        if self.r.randrange(5) < 2:
            return self.menus.part()
        many = [self.entry] * 4 + [self.arrow, self.moving, self.end, self.edited, self.faulty, self.pointed, self.goto,
                                   self.other]
        return self.wrong() if self.r.randrange(60) == 0 else self.r.choice(many)()

    def wrong(self):
        """The key of macros where it mostly starts none."""
        self.may_run = True
        return self.macros.wrong()

    def on_sheet(self, scene, name):
        """A scene's keys, over the file that the run begins with, or behind those that retrieve or make its sheet."""
        lines, keys = scene
        if self.r.randrange(16) == 0:
            return b'{BREAK}' + self.menus.done('we.yes') + self.data.typed_sheet(lines) + keys
        self.folder[name + '.WK1'] = file_of(lines)
        if self.opened is None and self.r.randrange(8):
            self.opened = name
            return keys
        return b'{BREAK}' + self.menus.done('f.retrieve', name.encode()) + keys

    def scenes(self):
        """Keys of the commands below Data and of macros, over sheets of their own; a macro that may end the run comes
        last."""
        r, out = self.r, b''
        macros = 2 if self.macros_alone else r.choice([0, 1, 1, 2])
        names = SHEETS[:r.choice([2, 2, 3, 4] if self.macros_alone else [2, 4, 5, 6, 8, 8])]
        for at, name in enumerate(names):
            macro = r.randrange(2) < macros
            self.may_run = self.may_run or macro
            out += self.on_sheet(self.macros.macro(at + 1 == len(names)) if macro else self.data.scene(), name)
        return out

    def kept(self):
        """The sheet is saved at the end, so that all of it is compared."""
        return b'{BREAK}/FS' + self.r.choice([b'', b'{ESC}']) + b'LAST~'

    def keys(self):
        """The keys of a list."""
        r = self.r
        parts = [self.part() for _ in range(r.choice([0, 1, 3, 8, 15, 30]))]
        pick = 0 if self.macros_alone else r.randrange(9)
        if pick < 7:
            parts = [self.scenes()] + parts[:r.choice([0, 0, 1, 3])] + ([self.kept()] if r.randrange(3) else [])
        elif pick == 7:
            parts.insert(0, self.menus.scene())
        if r.randrange(8) == 0:
            parts.insert(r.randrange(len(parts) + 1), self.menus.quit())
        out = b''.join(parts)
        ending = r.randrange(12)
        if ending == 0:
            out += self.typed(self.value())
        elif ending == 1:
            out += r.choice([b'{DO', b'{', b'A{DWN}~', b'}', b'{DOWN 0}', b'{DOWN 10000}~', b'\x07', b'{ALT 1}',
                             b'5{ALT '])
        return out

    def start(self):
        """The word for a start file: mostly one that is there."""
        r = self.r
        name = self.opened.encode() if self.opened else r.choice(sorted(self.menus.there) if self.menus.there
                                                                 and r.randrange(8) else FILES)
        spelled = (r.choice(SPELLED) % (name if r.randrange(3) else name.lower())).decode()
        return r.choice([['--file', spelled], ['--file=' + spelled]])

    def rows(self):
        """The word for a generated sheet, mostly of few rows."""
        many = self.r.choice([1, 2, 3, 5, 20, 21, 40, 300])
        return self.r.choice([['--gen', '%d' % many], ['--gen=%d' % many]])

    def steps(self):
        """The limit of steps, or none; a macro may run without an end."""
        r = self.r
        if self.waits_alone:
            return r.choice([r.randrange(1, 100), *[300] * 6, 600])
        if self.may_run:
            return r.choice([r.randrange(1, 100), r.randrange(1, 800), *[2000] * 7, *[3000] * 3])
        return r.choice([1, 2, 10, 50, 10000000]) if r.randrange(4 if self.opened is None else 30) == 0 else None

    def words(self):
        """The program's words for the keys that were made: mostly good ones, each at most once, in any order."""
        r = self.r
        if r.randrange(20 if self.opened is None else 60) == 0:
            return r.choice(BAD_WORDS)
        out = []
        if r.randrange(3) == 0:
            out.append(r.choice([['--show', 'last'], ['--show=pages'], ['--show', 'ansi']]))
        steps = self.steps()
        if steps:
            out.append(r.choice([['--steps', '%d' % steps], ['--steps=%d' % steps]]))
        if r.randrange(2):
            out.append(['--count'])
        if self.opened or r.randrange(2 if self.menus.there else 16) == 0:
            out.append(self.start())
        elif r.randrange(6) == 0:
            out.append(self.rows())
        if self.strict or r.randrange(6) == 0:
            out.append(['--strict'])
        r.shuffle(out)
        return sum(out, [])
