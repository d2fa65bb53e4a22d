"""Keys that go through menus: the ways to each command that the program has built, and answers to its prompts.

Ranges that are formatted, protected, erased or copied hold at most some 2,000 cells, since each is held."""
from ..model import menu
from ..model.address import cell_text

SPANS = [b'A1', b'B2', b'C3..C5', b'A1..C5', b'a1.b9', b'D2', b'C5..A1', b'B3..B3', b'E1..E20', b'A7..J7',
         b'IV8190..IV8192', b'A8192', b'H1.H1', b'Z100', b'A1..AB60', b'C1..C12', b'B2..D4', b'A1..A2']
NO_SPANS = [b'A0', b'IW1', b'NONAME', b'1+', b'A1..', b'', b'A$1', b'A8193', b'TAX RATE', b'B2..NONAME', b'$A$1',
            b'A1...B2', b'=', b'SIXTEEN_LETTERS_', b'SIXTEEN_LETTERS_', b' A1', b' A1', b'A1 ']
BESIDE_NUMBERS = [b'-1', b'', b'x', b'1e1', b'1/2', b'1000000000', b' 5', b'5 ', b'-0', b'0', b'99999999999999999999',
                  b'+', b'.', b'5%']
NOT_WHOLE = [b'2.5', b'0.5', b'1.5', b'12.25', b'3.000001']
NUMBERS = [b'0', b'5', b'1234.5', b'-1234.567', b'0.000001', b'31929', b'999999999', b'-0.4', b'73051', b'0.5', b'60',
           b'12345678.9']
LABELS = [b'Tax', b"'left", b'"right', b'^mid', b'\\-=', b'|not printed', b'a longer label than its column']
REFERENCES = [b'A1', b'B2', b'C3', b'$A$1', b'$B2', b'C$3', b'D4', b'A8192', b'IV1', b'$IV$8192', b'B1']
NAMES = [b'TOTAL', b'RATE', b'Rate', b'total', b'TAX_RATE', b'NET PAY', b'1', b'Q', b'IW1', b'A1', b'EXACTLY15LETTER',
         b'x.y', b'\\A', b'RATE2']
NO_NAMES = [b'', b'SIXTEEN_LETTERS_', b' RATE', b' ', b'SIXTEENLETTERS 1']
# formulas where these names may be there; where they aren't, the line goes to EDIT
WITH_NAMES = [b'+RATE*2', b'@SUM(TOTAL)', b'$RATE+1', b'+$rate+$1', b'@COUNT(TOTAL)+@SUM($TAX_RATE)',
              b'@SUM(TOTAL,RATE)', b'+total&"x"', b'+A1+RATE',
              b'@ROWS(TOTAL)*@COLS(q)', b'-IW1', b'+EXACTLY15LETTER', b'@MAX(A1..B3,Q)', b'+$Q*$RATE']
FILES = [b'A', b'B', b'C', b'PAY-87_2']
SPELLED = [b'%s', b'%s', b'%s', b'%s.WK1', b'%s.wk1', b'%s.Wk1']
SPELLED_REPORTS = [b'%s', b'%s', b'%s', b'%s.PRN', b'%s.prn', b'%s.Prn']
# headers and footers; none asks for the moment
RUNNING = [b'', b'#', b'page #', b'Report|of|June', b'|#', b'||#', b'left|middle|right|more', b'#|#|#',
           b'a header that is longer than most pages are wide' * 2, b'||a long text at the right', b'|x', b'###|##|#',
           b'  blanks  |  in  |  it  ', b'\x80\xe9|\xff', b'|', b'||']
NO_FILE = [b'', b'TOO_LONG9', b'A.PRN', b'A.WK1', b'A B', b'../A', b'.WK1', b'A.WK1.WK1', b'A*', b'PAY/A', b'A.',
           b'C:A', b'~A']
# what is typed where the name of the last save stands in the line; an empty text takes it
OVER_KEPT = [b'', b'', b'', b'', b'{BS 4}', b'{BS 5}B', b'{LEFT 4}2', b'{HOME}B{DEL}', b'{ESC}', b'{LEFT}{BS 9}',
             b'{HOME}{DEL}X', b'{ESC}C', b'{END}']
# how a choice is taken, and how it is given up
TAKEN = {'replace': [b'R', b'r', b'{RIGHT}~', b'{LEFT}~', b'{END}~', b'/R', b'{RIGHT 3}~', b'{DOWN}r'],
         'confirm': [b'Y', b'y', b'{RIGHT}~', b'{LEFT}~', b'{END}~', b'zY']}
GIVEN_UP = {'replace': [b'C', b'c', b'~', b'{ESC}', b'{BREAK}', b'{RIGHT 2}~', b'{HOME}~'],
            'confirm': [b'N', b'~', b'{ESC}', b'{BREAK}', b'{HOME}~']}
# keys that a menu passes over; only where a menu is surely there also those that mean something in READY once they are
# built
PASSED = [b'{UP}', b'{DOWN}', b'{PGUP}', b'{PGDN}', b'{EDIT}', b'{CALC}', b'{ABS}', b'{NAME}', b'{DEL}', b'{BS}',
          b'{GOTO}', b'{BIGLEFT}', b'{BIGRIGHT}', b'{WINDOW}', b'{GRAPH}', b'z', b' ', b'5', b'/', b'.', b'[']
PASSED_SURELY = [b'{QUERY}', b'{TABLE}', b'{UNDO}', b'{ALT A}']
EVERYWHERE = b'A1..IV1'


def ways(path='main', way=()):
    """The items that lead to no menu: the item, and the (path, place) of each item up to it."""
    for place, (_, after) in enumerate(menu.items(path)):
        here = way + ((path, place),)
        if after in menu.MENUS:
            yield from ways(after, here)
        else:
            yield after, here


# how often a command is taken, where not twice
WEIGHTS = {'copy': 10, 'r.erase': 4, 'wgp.enable': 1, 'wgr.manual': 1, 'wgr.automatic': 3, 'wgp.disable': 3,
           'we.yes': 4, 'q.yes': 0,
           'wc.hide': 1, 'wc.display': 4, 'wgf.hidden': 1, 'rf.hidden': 1, 'rn.create': 6, 'r.value': 5,
           'r.transpose': 5}


class MenuKeys:
    """Makes the keys; the typist makes entries and the like."""

    def __init__(self, typist):
        self.typist, self.r = typist, typist.r
        self.ways = list(ways())
        self.way_to = dict(self.ways)
        self.weights = [WEIGHTS.get(action, 2) for action, _ in self.ways]
        # the names of files that may be there, and of reports; the last one typed, and which of the two it is among;
        # and whether one was saved
        self.there, self.reports, self.is_kept = set(), set(), False
        self.named_last, self.among = b'', self.there

    # ------------------------------------------------------------ the way
    def taken(self, path, place):
        """Keys that take an item of a menu whose first item is highlighted."""
        r, items = self.r, menu.items(path)
        letter = items[place][0][:1].encode()
        left, behind = len(items) - place, len(items) - 1 - place
        return r.choice([
            lambda: letter, lambda: letter, lambda: letter.lower(), lambda: letter.lower(),
            lambda: b'{RIGHT}' * place + b'~',
            lambda: b'{RIGHT %d}~' % (place + len(items) * r.randrange(1, 3)),
            lambda: b'{LEFT %d}~' % left,
            lambda: b'{END}' + b'{LEFT}' * behind + b'~',
            lambda: b'{LEFT}{HOME}' + b'{R}' * place + b'~',
        ])()

    def passed(self, path, surely):
        """Mostly nothing, or a key that the menu passes over: the letters of what isn't built too."""
        r = self.r
        if r.randrange(6):
            return b''
        shown = {name[0] for name, _ in menu.items(path)}
        letters = [name[:1].encode() for name, _ in menu.MENUS[path] if name[0] not in shown]
        return r.choice(letters if letters and r.randrange(2) else PASSED + (PASSED_SURELY if surely else []))

    def way(self, way, surely=False):
        """Keys that go a way, with detours."""
        r, out = self.r, b'/'
        for path, place in way:
            out += self.passed(path, surely)
            deeper = [at for at, (_, after) in enumerate(menu.items(path)) if after in menu.MENUS]
            if deeper and r.randrange(12) == 0:
                out += self.taken(path, r.choice(deeper)) + b'{ESC}'
            out += self.taken(path, place)
        return out

    # ------------------------------------------------------------ answers
    def answered(self, keys):
        """An answer's keys, and what ends it."""
        r = self.r
        if r.randrange(12) == 0:
            keys += self.typist.line_keys()
        if r.randrange(6) == 0:
            keys += r.choice([b'{UP}', b'{DOWN}', b'{NAME}', b'{PGUP}', b'{PGDN}', b'{ESC}B2', b'{ESC}', b'{CALC}',
                              b'{ABS}', b'{GOTO}', b'{EDIT}'])
        return keys + r.choice([b'~'] * 24 + [b'{ESC}{ESC}', b'{BREAK}', b'{ESC}B2~', b'{ESC 3}{BREAK}'])

    def steered(self):
        """A range that is pointed at, not far from the pointer."""
        r = self.r
        step = lambda: b'{' + r.choice([b'UP', b'DOWN', b'LEFT', b'RIGHT', b'D', b'R', b'DOWN',
                                        b'RIGHT']) + r.choice([b'}', b'}', b' 2}', b' 5}'])
        part = lambda: step() if r.randrange(4) else r.choice([b'.', b'{ESC}', b'{BS}', b'{ABS}', b'{ESC}' + step()
                                                               + b'.', b'{NAME}', b'{HOME}'])
        return b''.join(part() for _ in range(r.randrange(4)))

    def span(self):
        """A span of a few cells in the first columns and rows, or one of those above."""
        r = self.r
        if r.randrange(3) == 0:
            return r.choice(SPANS)
        col, row = r.randrange(6), r.randrange(12)
        return cell_text((col, row)) + b'..' + cell_text((col + r.randrange(4), row + r.randrange(6)))

    def asked_R(self):
        """An answer to a prompt for a range, good or not; asked_N is one for a whole number."""
        r = self.r
        if r.randrange(8) == 0:
            return self.typist.typed(r.choice(NO_SPANS))
        if r.randrange(10) == 0:
            return self.by_name()
        return self.typist.typed(self.span()) if r.randrange(3) else self.steered()

    # a prompt for a cell takes a range as well
    asked_C = asked_R

    def by_name(self):
        """A name that may be there: typed, or found by NAME."""
        r = self.r
        return r.choice([lambda: self.typist.typed(r.choice(NAMES)), lambda: b'{NAME}' * r.randrange(1, 5),
                         lambda: b'{NAME 2}{BS}', lambda: b'{NAME}{NAME}'])()

    def asked_name(self):
        """A name to create, which may be there, or a text that is no name."""
        r = self.r
        return self.by_name() if r.randrange(4) == 0 else self.typist.typed(r.choice(NO_NAMES if r.randrange(8) == 0
                                                                                     else NAMES))

    asked_old = asked_name

    def asked_N(self, low, high):
        """An answer to a prompt for a whole number, mostly between the bounds."""
        r = self.r
        pick = r.randrange(16)
        if pick < 2:
            return r.choice(BESIDE_NUMBERS if pick else NOT_WHOLE)
        number = (r.choice([low - 1, high + 1]) if pick < 4 else r.choice([low, high]) if pick < 7
                  else r.randrange(low, min(high, low + 20) + 1))
        return r.choice([b'%d', b'%d', b'%d', b'+%d', b'%d.0', b'0%d', b'%d.', b'%d.000000']) % number

    def asked_D(self):
        """A number, mostly one that is short, or what is none."""
        r = self.r
        return r.choice(BESIDE_NUMBERS) if r.randrange(8) == 0 else r.choice(NUMBERS + [b'1', b'2', b'-1', b'0'])

    def asked_T(self):
        """A text."""
        return self.typist.typed(self.r.choice(RUNNING))

    def asked_order(self):
        """An order of sorting."""
        return self.r.choice([b'A', b'a', b'D', b'd', b'A', b'D', b'x', b''])

    def asked_F(self, ext):
        """The name of a file that may be there, or a text that is no name."""
        r = self.r
        if r.randrange(12) == 0:
            return self.typist.typed(r.choice(NO_FILE))
        self.among = self.there if ext == 'WK1' else self.reports
        self.named_last = r.choice(sorted(self.among)) if self.among and r.randrange(5) else r.choice(FILES)
        name = self.named_last if r.randrange(3) else self.named_last.lower()
        return r.choice(SPELLED if ext == 'WK1' else SPELLED_REPORTS) % name

    def choice(self, ask):
        """A choice between two, which is mostly taken."""
        return self.r.choice((TAKEN if self.r.randrange(6) else GIVEN_UP)[ask])

    def asked_confirm(self):
        """The choice No or Yes."""
        keys = self.choice('confirm')
        if keys in TAKEN['confirm']:
            self.among.discard(self.named_last)
        return keys

    def asked_replace(self):
        """The choice where the file is there, so far as that is known, and mostly nothing where it isn't."""
        is_asked = self.named_last in self.among
        self.among.add(self.named_last)
        if self.r.randrange(20) == 0:
            is_asked = not is_asked
        return self.choice('replace') if is_asked else b''

    def answer(self, ask):
        """An answer to a prompt of any kind that is built: a kind has its maker."""
        kind, *bounds = ask if isinstance(ask, tuple) else (ask,)
        keys = getattr(self, 'asked_' + kind.split(':')[-1])(*bounds)
        return keys if kind in TAKEN else self.answered(keys)

    # ------------------------------------------------------------ commands
    def done(self, action, *answers):
        """A command by its way, with these answers to its first prompts, and any to the others."""
        keys = self.way(self.way_to[action])
        for at, (_, ask) in enumerate(menu.prompts(action)):
            keys += answers[at] + b'~' if at < len(answers) else self.answer(ask)
        return keys

    def behind(self, action=''):
        """What may stand behind a command, since it may have been refused, or leads back to a menu."""
        if action in menu.BACK and self.r.randrange(12):
            return self.r.choice([b'{BREAK}', b'{ESC 3}', b'q', b'~{BREAK}'])
        return self.r.choice([b'', b'', b'', b'{ESC}', b'{ESC}', b'~', b'{ESC 3}', b'{BREAK}'])

    def command(self):
        """Any command."""
        r = self.r
        action, way = r.choices(self.ways, self.weights)[0]
        surely = r.randrange(3) == 0
        keys = (b'{BREAK}' if surely else b'') + self.way(way, surely)
        return keys + b''.join(self.answer(ask) for _, ask in menu.prompts(action)) + self.behind(action)

    def at(self, cell):
        """Keys that go to a cell."""
        return b'{GOTO}' + cell + b'~'

    def looked(self, cells):
        """The pointer goes to some of the cells and beside them, so that the first line tells of them."""
        r = self.r
        return b''.join(self.at(r.choice(cells)) + r.choice([b'', b'', b'{DOWN}', b'{RIGHT}', b'{UP}'])
                        for _ in range(r.randrange(1, 4)))

    def begun(self):
        """Mostly READY, and often without protection."""
        return self.r.choice([b'', b'{BREAK}', b'{BREAK}', b'{BREAK}' + self.done('wgp.disable')])

    def formula(self):
        """A short formula with references of every kind."""
        r = self.r
        ref = lambda: r.choice(REFERENCES)
        return r.choice([lambda: b'+' + ref() + b'*2', lambda: b'@SUM(' + ref() + b'..' + ref() + b')', lambda: b'+'
                         + ref() + b'+' + ref(),
                         lambda: b'@COUNT(' + ref() + b'..' + ref() + b')&"n"', lambda: b'@IF(' + ref() + b'>1,' + ref()
                         + b',@NA)',
                         lambda: b'+"long text beside "&@STRING(' + ref() + b',2)'])()

    def content(self):
        """Keys that spell a content."""
        r = self.r
        return self.typist.typed(r.choice([lambda: r.choice(NUMBERS), lambda: r.choice(LABELS), self.formula])())

    def column(self, cell):
        """Contents from a cell on downward."""
        return self.at(cell) + b''.join(self.content() + b'{DOWN}' for _ in range(self.r.randrange(1, 5)))

    def format(self, span):
        """A format over a span."""
        action = self.r.choice([action for action, _ in self.ways if action.startswith('rf.')])
        return self.done(action, *([span] if len(menu.prompts(action)) == 1 else [b'%d' % self.r.randrange(4), span]))

    def marked(self, span):
        """Mostly a format or a mark on a span, or both."""
        r = self.r
        return b''.join(r.choice([lambda: b'', lambda: self.format(span), lambda: self.done('r.unprotect', span),
                                  lambda: self.done('r.protect', span)])() for _ in range(2))

    def formatted(self):
        """Contents of all kinds, and formats and marks over them."""
        r = self.r
        keys = self.begun() + self.column(r.choice([b'A1', b'B2', b'C3']))
        for _ in range(r.randrange(1, 4)):
            keys += self.marked(r.choice([b'A1..C8', b'B2..B5', b'C3', b'A1..A2', b'b2.c4'])) + self.behind()
        if r.randrange(3) == 0:
            keys += self.done(r.choice([action for action, _ in self.ways if action.startswith('wgf.')
                                        or action == 'wc.set']))
        return keys + self.looked([b'A1', b'B2', b'B3', b'C3', b'C8'])

    def copied(self):
        """A formula that is copied: to a cell, along a row, down a column, over a block, or past the sheet."""
        r = self.r
        source = r.choice([b'A1', b'B2', b'D5', b'C3'])
        span = r.choice([source, source, b'A1..A3', b'A1..C1', b'B2..D5', source + b'.' + source])
        to = r.choice([b'B3', b'A2..A9', b'B1..H1', b'B2..E6', b'A1', b'D5', b'E6..F7', b'C8..C8', b'IV8192', b'A8192',
                       b'IU8191..IV8192', b'IV1', b'A8191..A8192', b'IV1..IV20', b'A8192..H8192'])
        keys = self.begun() + self.at(source) + self.typist.typed(self.formula()) + b'~' + self.marked(span)
        keys += (self.marked(b'B3..E6') if r.randrange(3) == 0 else b'') + self.done('copy', span, to) + self.behind()
        return keys + self.looked([b'B3', b'A9', b'E6', b'C3', b'D5', b'F7', to.split(b'.')[0]])

    def erased(self):
        """Contents with formats and marks, and what is left when they are erased."""
        r = self.r
        keys = self.begun() + self.column(b'B2') + self.marked(b'B2..B4') + self.marked(r.choice([b'B3', b'A1..B2']))
        return keys + self.done('r.erase', r.choice([b'B2..B3', b'B2', b'A1..C4',
                                                     b'B3..B9'])) + self.behind() + self.looked([b'B2', b'B3', b'B4',
                                                                                                 b'A1'])

    def guarded(self):
        """Protection, and what is written under it, also where only the first cells are free."""
        r = self.r
        free = r.choice([b'A1', b'B2', b'A1..A2', b'B2..C4', b'A1..B9'])
        keys = self.begun() + (self.column(b'A1') if r.randrange(2)
                               else b'') + self.done('r.unprotect', free) + self.done('wgp.enable')
        span = lambda: r.choice([free, free, b'A1..B2', b'B2..C5', b'A1..A3', self.span()])
        write = [lambda: self.at(r.choice([b'A1', b'B2', b'D9', b'C4'])) + self.content()
                 + r.choice([b'~', b'{DOWN}', b'{UP}']),
                 lambda: self.done('r.erase', span()), lambda: self.done('copy', span(), span()),
                 lambda: self.done('copy', r.choice([b'A1..B2', b'B1..B2']),
                                   r.choice([b'IV8192', b'A8192', b'IV1', b'IV2..IV5'])),
                 lambda: self.done(r.choice(['rl.left', 'rl.right', 'rl.center']), span()), self.command,
                 lambda: self.done(r.choice(['r.protect', 'r.unprotect']), span()), self.typist.edited]
        for _ in range(r.randrange(1, 5)):
            keys += r.choice(write)() + r.choice([b'{ESC}', b'{ESC}', b'~', b'{BREAK}', b''])
        return keys + (b'{BREAK}' + self.done('wgp.disable') if r.randrange(6)
                       else b'') + self.looked([b'A1', b'B2', b'A3', b'C5'])

    def labelled(self):
        """Labels, whose prefixes are changed."""
        r = self.r
        keys = self.begun() + self.done(r.choice(['wgl.left', 'wgl.right',
                                                  'wgl.center'])) + self.column(b'B2') + self.behind()
        return (keys + self.done(r.choice(['rl.left', 'rl.right', 'rl.center']),
                                 r.choice([b'B2..B6', b'A1..C5', b'B3'])) + self.behind()
                + self.looked([b'B2', b'B3', b'B4']))

    def columns(self):
        """Columns that are wide, narrow and hidden, and moving past them."""
        r = self.r
        hidden = r.choice([EVERYWHERE, b'B1', b'B1..C1', b'A1', b'IV1', b'A1..G9', b'D1..IV1', b'A1..IU1'])
        part = [lambda: self.done('wc.set'), lambda: self.done('wc.reset'), lambda: self.done('wc.hide', hidden),
                lambda: self.done('wc.display', self.span()), lambda: self.done('wgc'), self.typist.moving,
                self.typist.arrow, self.typist.arrow,
                self.typist.end, self.typist.goto, lambda: self.content() + b'{RIGHT}', self.typist.pointed]
        keys = b''.join(r.choice(part)() + self.behind() for _ in range(r.randrange(2, 7)))
        return keys + (b'{BREAK}' + self.done('wc.display', EVERYWHERE) if r.randrange(4) else b'')

    def named(self):
        """Names that are created, move and go, formulas with them, and answers by them."""
        r = self.r
        span = lambda: r.choice([b'A1', b'B2..B5', b'A1..C3', b'B2', b'C4..B1', b'A1..A4', self.span()])
        create = lambda: self.done('rn.create', self.typist.typed(r.choice(NAMES)), span())
        keys = self.begun() + self.column(r.choice([b'A1', b'B2'])) + b''.join(create()
                                                                               for _ in range(r.randrange(1, 4)))
        formula = lambda: self.at(r.choice([b'D1', b'D2', b'E5'])) + self.typist.typed(r.choice(WITH_NAMES)) + r.choice(
            [b'~', b'~', b'{DOWN}', b'{EDIT}~', b'{EDIT}{BS}~']) + r.choice([b'{ESC}{ESC}', b'{ESC}{ESC}', b'{BREAK}'])
        part = [create, create, formula, formula, formula,
                lambda: self.done('rn.delete', self.typist.typed(r.choice(NAMES))) + b'{ESC}',
                lambda: self.done('rn.delete'), lambda: self.done('rn.create'), lambda: self.done('rn.reset'),
                lambda: b'{GOTO}' + self.by_name() + b'~{ESC 2}',
                lambda: self.done('copy', self.by_name(), r.choice([b'F1', b'D8'])),
                lambda: self.done(r.choice(['r.value', 'r.transpose']), self.by_name(),
                                  r.choice([b'F1', b'TOTAL', b'B2'])),
                lambda: self.format(self.by_name()), lambda: self.at(r.choice([b'D1', b'D2'])) + b'{EDIT}'
                + r.choice([b'~', b'+1~', b'{ESC 2}', b'{HOME}{DEL}~{ESC 2}']),
                lambda: self.done('copy', b'D1..D2', b'E5'), lambda: self.at(r.choice([b'A1', b'B3'])) + self.content()
                + b'~']
        for _ in range(r.randrange(2, 8)):
            keys += r.choice(part)() + self.behind()
        return keys + self.looked([b'D1', b'D2', b'E5', b'F1', b'A1'])

    def valued(self):
        """Values of all kinds with formats and marks, written elsewhere as they stand or turned: over themselves and
        past the sheet too."""
        r = self.r
        corner = r.choice([b'A1', b'B2'])
        keys = self.begun() + self.column(corner) + self.column(r.choice([b'B1', b'C2', b'A3']))
        keys += r.choice([b'', self.at(b'B3') + r.choice([b'@ERR~', b'@NA~', b'+"text"&"s"~', b'+1/3~', b'+A1/0~',
                                                          b'^mid~'])])
        keys += self.marked(r.choice([b'A1..C5', b'B2..B4', b'A1'])) + (self.done('wgr.manual') if r.randrange(6) == 0
                                                                        else b'')
        guarded = r.randrange(5) == 0
        for _ in range(r.randrange(1, 4)):
            source = r.choice([b'A1..A4', b'B2..C5', b'A1..C1', b'A1', b'A1..C5', b'B3..B2', self.span()])
            to = r.choice([b'E1', b'A1', b'B2', b'B1', b'A3', b'C3', b'D4', b'IV8192', b'A8192', b'IV1', b'IU8191',
                           b'A8190', b'B3..C4'])
            keys += self.done(r.choice(['r.value', 'r.transpose']), source, to) + self.behind()
            if guarded:
                keys += b'{BREAK}' + self.done('r.unprotect',
                                               r.choice([b'E1', b'E1..H4', b'A1..D4',
                                                         b'D4..D8'])) + self.done('wgp.enable')
        keys += b'{BREAK}' + self.done('wgp.disable') if guarded and r.randrange(4) else b''
        return keys + self.looked([b'E1', b'E2', b'F1', b'A1', b'B2', b'C3', b'D4', b'B3'])

    def saved(self):
        """A save under a name, or under the one of the save before."""
        r = self.r
        keys = self.way(self.way_to['f.save'])
        if self.is_kept and r.randrange(3):
            keys += r.choice(OVER_KEPT) + b'~'
        else:
            keys += self.answer(('F', 'WK1'))
        self.is_kept = True
        return keys + self.asked_replace()

    def combined(self):
        """A file that is combined at a cell, some of whose cells would stand past the sheet, or under protection."""
        r = self.r
        guarded = r.randrange(8) == 0
        keys = self.done('r.unprotect', r.choice([b'A1..H20', b'A1',
                                                  b'B2..D4'])) + self.done('wgp.enable') if guarded else b''
        keys += self.at(r.choice([b'A1', b'A1', b'A1', b'B2', b'C3', b'D1', b'A8', b'IV1', b'A8192', b'IT8190',
                                  b'IU8189']))
        keys += self.done(r.choice(['fc.copy', 'fc.add', 'fc.subtract'])) + self.behind()
        return keys + (b'{BREAK}' + self.done('wgp.disable') if guarded else b'')

    def extracted(self):
        """A part of the sheet in a file of its own."""
        answers = [self.asked_F('WK1'), self.span()] if self.r.randrange(2) else []
        return self.done(self.r.choice(['fx.formulas', 'fx.values']), *answers)

    def filed(self):
        """What is saved, changed, combined, brought back and erased again."""
        r = self.r
        keys = self.begun() + self.column(r.choice([b'A1', b'B2'])) + self.column(r.choice([b'B1', b'C2', b'A3']))
        keys += self.marked(r.choice([b'A1..C5', b'B2..B4'])) + (b'' if self.there else b'{BREAK}' + self.saved())
        change = lambda: self.at(r.choice([b'A1', b'B2', b'B3', b'C3', b'D4'])) + self.content() + b'~'
        setting = lambda: self.done(r.choice(['wgc', 'wc.set', 'wgf.text', 'wgl.right', 'wgr.manual', 'wgr.columnwise',
                                              'wc.hide', 'rn.create', 'wgr.iteration']))
        part = [self.saved, self.saved, self.combined, self.combined, self.combined, self.extracted, self.extracted,
                change, change, setting, lambda: self.done('f.retrieve'), lambda: self.done('f.retrieve'),
                lambda: self.done('f.erase'), lambda: b'{CALC}', lambda: self.done('we.yes')]
        for _ in range(r.randrange(2, 7)):
            keys += r.choice(part)() + self.behind()
        return keys + self.looked([b'A1', b'A2', b'B2', b'B3', b'C3', b'D4'])

    def laid_out(self):
        """Keys from a report's menu through one of its settings, mostly a good one, and back to that menu."""
        r = self.r
        path = r.choice(['print', 'po', 'po', 'pm', 'pm', 'pm'])
        way = {'print': [], 'po': [('print', 1)], 'pm': [('print', 1), ('po', 2)]}[path]
        place = r.choice({'print': [0], 'po': [0, 1, 3], 'pm': [0, 1, 2, 3]}[path])
        action = menu.items(path)[place][1]
        out = b''.join(self.passed(*step[:1], False) + self.taken(*step) for step in way) + self.taken(path, place)
        good = {'p.range': self.span(), 'po.length': b'%d' % r.choice([10, 11, 12, 15, 20, 66]),
                'pm.left': b'%d' % r.choice([0, 1, 4, 10, 75]),
                'pm.right': b'%d' % r.choice([1, 8, 20, 30, 76, 240]), 'pm.top': b'%d' % r.randrange(5),
                'pm.bottom': b'%d' % r.randrange(5)}
        out += good[action] + b'~' if action in good and r.randrange(6) else self.answer(menu.prompts(action)[0][1])
        return out + b''.join(self.taken(up, len(menu.items(up)) - 1) if r.randrange(8) else b'{ESC}'
                              for up, _ in [(path, 0), *reversed(way)][:len(way)])

    def printed(self):
        """Reports of what stands near A1, with settings that are kept from one to the next."""
        r = self.r
        keys = self.begun() + self.column(r.choice([b'A1',
                                                    b'B2'])) + self.column(r.choice([b'B1', b'C2', b'A3', b'H1']))
        keys += self.marked(r.choice([b'A1..C5', b'B2..B4'])) + self.done(r.choice(['wgc', 'wc.set', 'wc.hide',
                                                                                    'wgf.text',
                                                                                    'wc.reset'])) + b'{BREAK}'
        for _ in range(r.randrange(1, 4)):
            keys += b'{BREAK}' + self.way(self.way_to['p.file'])
            keys += self.answer(('F', 'PRN')) + self.asked_replace()
            keys += self.taken('print', 0) + self.span() + b'~' if r.randrange(6) else b''
            keys += b''.join(self.laid_out() for _ in range(r.choice([0, 0, 1, 2, 4])))
            keys += self.taken('print', 2 if r.randrange(8) else 3) + self.behind()
            if r.randrange(3) == 0:
                keys += r.choice([self.shifted, self.command, self.saved, lambda: self.done('we.yes')])()
        return keys

    def shifted(self):
        """Rows or columns that are inserted or deleted, or cells that are moved, near A1."""
        r = self.r
        if r.randrange(3) == 0:
            return self.done('move', self.span(), r.choice([b'B2', b'F1', b'A1', b'E3']))
        return self.done(r.choice(['wi.row', 'wi.column', 'wd.row', 'wd.column']),
                         r.choice([b'A1', b'B2', b'D1..E2', b'C3', b'F1']))

    def order(self):
        """Keys that set an order of evaluation."""
        return self.done(self.r.choice(['wgr.natural', 'wgr.columnwise', 'wgr.rowwise']))

    def passes(self):
        """Keys that set the number of passes."""
        return self.done('wgr.iteration', self.r.choice([b'1', b'1', b'2', b'3', b'5', b'50']))

    def reckoned(self):
        """Orders, passes, circles, and Manual with CALC."""
        r = self.r
        part = [self.order, self.passes, lambda: self.done('wgr.manual'), lambda: self.done('wgr.automatic')]
        values = [b'+A1+1', b'+B1+1', b'+A2*2', b'@SUM(A1..B2)', b'5', b'+C3+B1', b'@CELLPOINTER("row")', b'@@("B1")']
        circle = lambda: (self.at(r.choice([b'A1', b'B1', b'A2', b'C3'])) + r.choice(values)
                          + r.choice([b'~', b'{DOWN}', b'{RIGHT}']))
        part += [circle, circle, circle, lambda: b'{CALC}', lambda: b'{CALC 3}', self.typist.entry]
        keys = self.begun() + b''.join(r.choice(part)() for _ in range(r.randrange(2, 8)))
        return keys + r.choice([b'', self.done('wgr.automatic'), b'{CALC}', self.done('wgr.iteration', b'1')])

    def ordered(self):
        """Formulas whose values tell in which order and how often they were evaluated."""
        r = self.r
        cells = [b'{GOTO}A2~+B1+1~', b'{GOTO}B1~+A1*2~', b'{GOTO}C1~+A3~', b'{GOTO}A3~+C1+B1~', b'{GOTO}C2~+C2+1~',
                 b'{GOTO}B3~+A2+C2~']
        r.shuffle(cells)
        keys = self.begun() + self.order() + (self.passes() if r.randrange(2)
                                              else b'') + b''.join(cells[:r.randrange(3, 7)])
        return keys + b'{GOTO}A1~%d~' % r.randrange(1, 9) + r.choice([b'', b'{CALC}', self.order() + b'{CALC}',
                                                                      self.passes() + b'{CALC}'])

    def freshened(self):
        """Settings, and a fresh sheet, or not."""
        r = self.r
        some = [lambda: self.done('wgc', b'%d' % r.randrange(3, 20)),
                lambda: self.done('wc.set', b'%d' % r.randrange(3, 20)), lambda: self.done('wc.hide', b'B1..C1'),
                lambda: self.done(r.choice(['wgl.right', 'wgl.center', 'wgf.text', 'wgf.date1', 'wgr.manual'])),
                lambda: self.done('wgp.enable'), self.order, self.passes, lambda: self.format(b'A1..B3'),
                lambda: self.column(b'B2')]
        keys = b'{BREAK}' + b''.join(r.choice(some)() for _ in range(r.randrange(1, 5)))
        keys += self.way(self.way_to['we.yes'][:-1]) + r.choice([b'y', b'y', b'{LEFT}~', b'Y', b'N', b'~', b'{ESC 3}'])
        return keys + r.choice([b'', self.looked([b'A1', b'B2', b'C1']), self.content() + b'{RIGHT}', self.content()
                                + b'{CALC}', b'+A1+1{CALC}~'])

    def numbered(self):
        """Whole numbers at their bounds and beside them."""
        r = self.r
        asking = [action for action, _ in self.ways if menu.prompts(action) and menu.prompts(action)[0][1][0] == 'N']
        return self.begun() + b''.join(self.done(r.choice(asking)) + self.behind() for _ in range(r.randrange(1, 4)))

    def wandered(self):
        """Keys that come to this or that in the menus."""
        r = self.r
        some = [b'%c' % byte for byte in b'wrcgflrcpehdsunmaiey,0123'] + [b'{RIGHT}', b'{LEFT}', b'{HOME}', b'{END}',
                                                                          b'{ESC}', b'{ESC 2}', b'~', b'~', b'/', b'q',
                                                                          b'{BREAK}/']
        return b'/' + b''.join(r.choice(some)
                               for _ in range(r.randrange(1, 9))) + r.choice([b'{BREAK}', b'{ESC 3}', b'{ESC 4}', b''])

    def too_long(self):
        """A text past what a line holds, which isn't edited."""
        r = self.r
        label = b'x' * 240 + b'~{EDIT}'
        formula = self.at(b'A1') + b'+A1' * r.choice([60, 79,
                                                      80]) + b'~' + self.done('copy', b'A1',
                                                                              b'Z100') + self.at(b'Z100') + b'{EDIT}'
        return r.choice([label, formula]) + r.choice([b'{ESC}', b'{BS}~', b'~', b'{ESC 3}'])

    def stayed(self):
        """Quit that isn't taken."""
        return self.way(self.way_to['q.yes'][:1]) + self.r.choice([b'n', b'~', b'{ESC}{ESC}', b'{BREAK}', b'{LEFT 2}~',
                                                                   b'x{ESC 2}'])

    def quit(self):
        """Quit that is taken, and mostly keys behind it."""
        return b'{BREAK}' + self.way(self.way_to['q.yes'], True)

    def scene(self):
        """Commands that belong together."""
        return self.r.choice([self.copied, self.guarded, self.formatted, self.erased, self.labelled, self.columns,
                              self.numbered, self.reckoned, self.ordered, self.freshened, self.named, self.named,
                              self.valued, self.valued, self.filed, self.filed, self.filed, self.printed,
                              self.printed])()

    def part(self):
        """Keys of a command, or of a menu that is left."""
        many = [self.scene] * 16 + [self.command] * 7 + [self.wandered, self.stayed]
        return self.too_long() if self.r.randrange(40) == 0 else self.r.choice(many)()
