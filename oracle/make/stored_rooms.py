"""Stored runs of keys from room to room. A line of worked/rooms tells a small sheet by words, and then keys in
hexadecimal digits: `hB1` hides a column, `fA1` fills a cell, `lA1=TEXT` puts a label of these digits, `nNAME=SPAN`
makes a name, `pB2` moves the pointer, and `s3` lets so many columns be shown."""
from ..model import screen, wk1
from ..model.address import read_cell, read_span
from ..model.commands import Desk
from ..model.keys import keys_of
from ..model.outside import MapShelf
from ..model.session import Session
from ..model.sheet import Sheet
from .cases import worked
from .joined import joined

LABEL = ord("'")
MOVES = [b'{UP}', b'{DOWN}', b'{LEFT}', b'{RIGHT}', b'{PGUP}', b'{PGDN}', b'{BIGLEFT}', b'{BIGRIGHT}', b'{HOME}']
OTHER = [b'{ESC}', b'{BS}', b'{DEL}', b'{EDIT}', b'{NAME}', b'{ABS}', b'{GOTO}', b'{WINDOW}', b'{GRAPH}', b'{CALC}',
         b'{BREAK}', b'{QUERY}', b'{TABLE}', b'{UNDO}', b'{ALT A}', b'{END}', b'/', b'~']
CELLS = [b'%c%d' % (col, row) for col in b'ABCDEF' for row in (1, 2, 3, 4, 5, 6, 25, 8191, 8192)]
COLUMNS = [b'A1', b'B1', b'C1', b'D1', b'E1', b'F1', b'H1', b'I1', b'J1', b'K1', b'IQ1', b'IT1', b'IU1', b'IV1']
NAMED = [b'TAX', b'RATE', b'ZED', b'A_NAME', b'x9y']
SPANS = [b'B2..B2', b'A1..A9', b'C3..D4', b'IV8192..IV8192', b'F1..A3']
POINTERS = [b'B2', b'D4', b'E2', b'C5', b'K1', b'IV1', b'IU8191', b'A8192', b'IV8192', b'A21']
# so many lists of keys are typed over a sheet
LISTS = 10
# the room for columns on a screen
ROOM = 72


# ---------------------------------------------------------------- worked lines

def word_keys(word):
    """The keys of a word."""
    kind, rest = word[:1], word[1:]
    first, _, second = rest.partition(b'=')
    goto = b'{GOTO}' + first + b'~'
    return {b'h': lambda: b'/WCH' + rest + b'~', b'f': lambda: goto + b"'x~", b'l': lambda: goto + b"'"
            + bytes.fromhex(second.decode()) + b'~',
            b'n': lambda: b'/RNC' + first + b'~' + second + b'~', b'p': lambda: goto,
            b's': lambda: b'/WGC%d~' % (ROOM // int(rest)),
            b'k': lambda: bytes.fromhex(rest.decode())}[kind]()


def worked_case(line):
    """A worked line over a fresh sheet, whose pointer stands in its first cell before it is moved."""
    *words, keys = line.split(b' ')
    moved = [word for word in words if word[:1] == b'p']
    made = [word for word in words if word[:1] != b'p']
    return lambda to: to.type(b'{BREAK}/WEY' + b''.join(map(word_keys, made)) + b'{HOME}'
                              + b''.join(map(word_keys, [*moved, keys])))


# ---------------------------------------------------------------- random lists of keys

class Unpainted(Session):
    """A session whose screens nobody sees."""

    def frame(self):
        """The screen as it now is."""
        self.corner = screen.moved_corner(self.sheet, self.corner)

    def press(self, notation):
        """Presses the keys that are spelled; whether the session goes on."""
        shelf = MapShelf({})
        return all(self.step(('key', key), (None, 0), shelf) != 'quit' for key, count in keys_of(notation)[0]
                   for _ in range(count))


class KeyLists:
    """Random keys. They are followed, so that the next one mostly means something in the room that is there."""

    def __init__(self, r):
        self.r = r

    def sheet(self):
        """A small sheet with hidden columns, names, and columns of any width."""
        r, sheet = self.r, Sheet()
        for cell in r.sample(CELLS, r.choice([0, 2, 6, 12])):
            sheet.enter(read_cell(cell), ('label', LABEL, b'x'))
        if r.randrange(4) == 0:
            sheet.enter(read_cell(r.choice([b'A1', b'B2'])), ('label', LABEL,
                                                              b'y' * r.choice([1, 5, 100, 238, 239, 240])))
        for cell in r.sample(COLUMNS, r.choice([0, 0, 1, 2, 4])):
            sheet.set_hidden(*[read_cell(cell)[0]] * 2, True)
        for name in r.sample(NAMED, r.choice([0, 0, 1, 3])):
            sheet.create_name(name, read_span(r.choice(SPANS)))
        if r.randrange(2):
            sheet.settings.pointer = read_cell(r.choice(POINTERS))
        sheet.settings.width = ROOM // r.choice([8, 8, 8, 1, 3, 7])
        return wk1.write(sheet.snapshot())

    def entry(self):
        """The begin of a line of any kind."""
        r = self.r
        return r.choice([b'+', b'-(', b'@SUM(', b'+A1#AND#', b'1+', b'12', b'@IF(A1>', b'+"x"&', b'abc', b"'long label",
                         b'; ', b'^', b'$', b'.5',
                         b'#NOT#', b'{{}', b'1' * r.choice([225, 236, 239]) + b'+', b'z' * 250])

    def usual(self, mode):
        """Keys that mean something in a mode."""
        r = self.r
        text = [b'x', b'7', b')', b'*', b',', b'=', b'A1', b'<>', b'&', b'(']
        return {'READY': lambda: r.choice([self.entry, self.entry, lambda: r.choice(MOVES), lambda: b'{END}'
                                           + r.choice(MOVES), lambda: b'{EDIT}',
                                           lambda: b'{GOTO}', lambda: b'{GOTO}' + self.answer() + b'~'])(),
                'LABEL': lambda: r.choice(MOVES + text + [b'~', b'{EDIT}', b'{BS}', b'{ESC}']),
                'VALUE': lambda: r.choice(MOVES[:4] * 3 + text + MOVES + [b'~', b'{EDIT}', b'{BS}']),
                'EDIT': lambda: r.choice(MOVES + text + [b'{END}', b'{DEL}', b'{BS}', b'{ESC}', b'~', self.answer()]),
                'POINT': lambda: r.choice(MOVES[:4] * 3 + [b'.', b'.', b'{ABS}', b'{ABS}', b'{ESC}', b'{BS}', b'~',
                                                           b'+', b')', b',', b'{NAME}', self.answer()]),
                'ERROR': lambda: r.choice([b'~', b'{ESC}', b'{BREAK}', b'x', b'{UP}']),
                'MENU': lambda: r.choice([b'w', b'c', b'r', b'{ESC}', b'{RIGHT}', b'~'])}[mode]()

    def answer(self):
        """An answer to GOTO, good or not."""
        return self.r.choice([b'B7', b'c3', b'IV8192', b'TAX', b'rate', b'A0', b'IW1', b'$A$1', b'A8193', b'NO NAME',
                              b'B2..C3', b'1+', b'A_NAME', b'Z100.AA1'])

    def keys(self, held):
        """Keys one behind the other, over a sheet's file; some that quit aren't taken."""
        r, out = self.r, b''
        session = Unpainted(Desk(Sheet.restore(wk1.read(held))))
        for _ in range(r.choice([1, 2, 3, 4, 6, 9])):
            more = self.usual(session.mode) if r.randrange(6) else r.choice(MOVES + OTHER)
            if not session.press(more):
                return b''
            out += more
        return out + (r.choice(MOVES + [b'~'] * 4) if session.mode in ('LABEL', 'VALUE', 'EDIT', 'POINT')
                      and r.randrange(2) else b'')

    def case(self, to):
        """Lists of keys over a sheet, which is retrieved before each."""
        held = self.sheet()
        name = to.put(held)
        for _ in range(LISTS):
            to.retrieve(name)
            to.type(self.keys(held))


def rooms(r):
    """The worked lines, and 3,000 random lists of keys."""
    of = KeyLists(r)
    yield from joined([worked_case(line) for line in worked('rooms').splitlines()] + [of.case] * (3000 // LISTS))
