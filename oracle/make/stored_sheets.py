"""Stored runs of edits and of screens. What the lines of worked/sheets and of `cases.Sheets` tell is typed: a list of
writes stands in a file that is combined, and a formula of the moment in one whose value is the same at any."""
import functools

from ..model import wk1
from ..model.address import cell_text, read_cell
from ..model.keys import typed
from ..model.sheet import Sheet
from ..model.values import C_BLANK
from .cases import Sheets, TEXT_BYTES, worked
from .edits import Desk
from .joined import joined
from .stored_parts import as_value, goto

# all columns of small sheets with all decimals
FRESH = b'{BREAK}/WEY/WGC20~'
STILL = b'@IF(@TRUE,7,@NOW)'
SETTINGS = {'A': b'/WGRA', 'M': b'/WGRM', 'P': b'/WGPE', 'Q': b'/WGPD', 'N': b'/WGRN', 'C': b'/WGRC', 'R': b'/WGRR'}
LINES = {b'ir': b'/WIR', b'ic': b'/WIC', b'dr': b'/WDR', b'dc': b'/WDC'}
# the letters of formats, and of those that ask for decimals
FORMATS = {0x71: b'G', 0x72: b'D1', 0x73: b'D2', 0x74: b'D3', 0x75: b'T', 0x76: b'H', 0x7F: b'R'}
DETAILED = {0x00: b'F', 0x20: b'C', 0x30: b'P', 0x40: b','}
PREFIXES = b"'\"^\\|"


def format_letters(code):
    """How a format's code is taken in the menus, or none where they have it not."""
    if code in FORMATS:
        return FORMATS[code]
    kind = DETAILED.get(code & 0x70)
    return kind and kind + b'%d~' % (code & 0x0F)


def format_keys(span, code):
    """A format over a span."""
    letters = format_letters(code)
    return b'/RF' + letters + span + b'~' if letters else b''


class EditKeys:
    """Follows the lines of a sheet's edits, and makes the keys that come to the same."""

    def __init__(self, to):
        self.to, self.desk = to, Desk()

    def line(self, line):
        """Types what a line tells; `?` saves all of the sheet."""
        if line == b'?':
            self.to.save()
            return
        line = line.replace(b'@NOW', STILL)
        self.to.type(self.keys(line) + b'{BREAK}')
        self.desk.line(line)

    def keys(self, line):
        """The keys of a line."""
        head, rest = line[:1], line[1:]
        first, _, second = rest.partition(b' ')
        if line[:2] in LINES:
            return LINES[line[:2]] + line[2:] + b'~'
        return {b'=': lambda: self.entered(first, second), b'e': lambda: b'/RE' + rest + b'~', b'c': lambda: b'/C'
                + first + b'~' + second + b'~',
                b'>': lambda: b'/M' + first + b'~' + second + b'~', b'x': lambda: self.written(rest),
                b'f': lambda: format_keys(first, int(second)),
                b'p': lambda: b'/RP' + rest + b'~', b'u': lambda: b'/RU' + rest + b'~',
                b's': lambda: self.set(rest.decode()),
                b'+': lambda: b'/RNC' + typed(second) + b'~' + first + b'~', b'w': lambda: goto(read_cell(first))
                + self.width(second),
                b'h': lambda: b'/WCH' + rest + b'~', b'v': lambda: b'/WCD' + rest + b'~',
                b'!': lambda: b'{CALC}'}[head]()

    def entered(self, cell, text):
        """An entry in a cell, or its erasing."""
        if not text:
            return b'/RE' + cell + b'~'
        return goto(read_cell(cell)) + typed(text if text[0] in PREFIXES else as_value(text)) + b'~'

    def width(self, digits):
        """The keys that set a column's width, or take it away where that is 0."""
        return b'/WCS' + digits + b'~' if int(digits) else b'/WCR'

    def set(self, letters):
        """The keys of settings, a letter each."""
        return b''.join(SETTINGS[letter] if letter in SETTINGS else b'/WGRI' + letter.encode() + b'~'
                        for letter in letters)

    def written(self, rest):
        """Writes at once: a file that is combined, and behind it the cells that lose what they hold."""
        parts = [part.split(b' ', 2) for part in rest.split(b'\t')]
        cells = Sheet()
        cells.write([write for write in self.desk.writes_of(rest) if write[1] != C_BLANK])
        keys = b'{HOME}/FCC' + self.to.put(wk1.write(cells.snapshot())) + b'~{BREAK}' if cells.cells else b''
        return keys + b''.join(self.blank(cell, code) for cell, code, text in parts if not text)

    def blank(self, cell, code):
        """A cell that loses its contents, and gets a format."""
        keys = b'/RE' + cell + b'~{BREAK}'
        if code == b'-':
            return keys
        return keys + format_keys(cell, int(code) & 0x7F) + (b'/RP' if int(code) & 0x80 else b'/RU') + cell + b'~'


def edited(lines, to):
    """A sheet, whose edits are typed; all of it is compared at the end."""
    to.type(FRESH)
    keys = EditKeys(to)
    for line in lines:
        keys.line(line)
    to.save()


def sheets_of(lines):
    """The lines of each sheet."""
    out = []
    for line in lines:
        if line == b':':
            out.append([])
        else:
            out[-1].append(line)
    return out


def edits(r):
    """The worked edits, and 10,000 random ones."""
    lines = worked('sheets').splitlines() + Sheets(r).edits(10000)
    return joined(functools.partial(edited, sheet) for sheet in sheets_of(lines))


# ---------------------------------------------------------------- screens

MENUS = [b'/', b'/W', b'/WG', b'/WGF', b'/WGFD', b'/WGL', b'/WGR', b'/WGP', b'/WI', b'/WD', b'/WC', b'/WE', b'/R',
         b'/RF', b'/RFD', b'/RL', b'/RN', b'/F', b'/FC', b'/FX', b'/D', b'/DT', b'/DS', b'/DQ', b'/DQD', b'/Q']
PROMPTS = [b'/WGC', b'/WGFF', b'/WGRI', b'/WCS', b'/RNC', b'/RND', b'/FR', b'/FS', b'/FXF', b'/FE']
POINTED = [b'/RE', b'/C', b'/M', b'/WIR', b'/WDC', b'/WCH', b'/RFG', b'/RP', b'/DF', b'{GOTO}']
FAILING = [b'{QUERY}', b'{TABLE}', b'/RND~', b'/RNDNONE~', b'/WCS0~', b'/REA0~', b'/RENONE~', b'/FRNONE~', b'/FR*~',
           b'/DFA1~1~0~9~', b'/DSG', b'/CA1.B2~IV8192~', b'/WIRA2.A8192~']


class Screens(Sheets):
    """Wider sheets, and what is typed over them."""

    def sheet(self):
        """A sheet around a corner with cells, formats, widths and marks."""
        r = self.r
        self.desk = Desk()
        self.left, self.top = r.choice([(0, 0), (0, 0), (22, 90), (248, 8176)])
        place = self.place
        byte, width = r.choice([113, 113, 127, 2, 34, 66, 112, 118, 16]), r.choice([9, 9, 10, 1, 3, 72, 240])
        out = [b'g%d %d' % (byte, width)]
        out += [b'w' + place() + b' %d' % r.choice([0, 1, 2, 3, 10, 20, 75, 77, 240]) for _ in range(r.randrange(4))]
        out += [b'h' + place() for _ in range(r.choice([0, 0, 1, 3]))]
        long = lambda: bytes(r.choice(TEXT_BYTES) for _ in range(r.choice([3, 8, 12, 40, 120])))
        def content(cell):
            label = lambda: bytes([r.choice(b"'\"^\\|")]) + long()
            number = lambda: b'%d' % r.randrange(-99, 100000)
            six_decimals = lambda: b'%.6f' % r.uniform(0, 1)
            constants = [lambda text=text: text for text in (b'+"xyz"', b'1/0', b'@DATE(87,6,1)', b'@NA')]
            return r.choice([label, label, lambda: self.text(cell), number, six_decimals, *constants])()
        writes = []
        for _ in range(r.randrange(1, 14)):
            cell = place()
            writes.append(cell + b' - ' + content(cell)[:200])
        out.append(b'x' + b'\t'.join(writes))
        out += [b'f' + place() + b'..' + place() + b' %d' % r.choice([0, 2, 34, 50, 66, 113, 114, 115, 116, 117, 118])
                for _ in range(r.randrange(3))]
        out += [r.choice([b'p', b'u']) + place() for _ in range(r.randrange(3))]
        out += [b'sP'] * r.randrange(2) + [b'sM'] * (r.randrange(4) == 0)
        return out

    def place(self):
        """A cell at the sheet's corner or a little away from it."""
        r = self.r
        return cell_text((min(self.left + r.randrange(10), 255), min(self.top + r.randrange(24), 8191)))

    def pointed(self):
        """The pointer goes to a place."""
        return goto(read_cell(self.place()))

    def scene(self, to):
        """A sheet in a file, and screens of it."""
        for line in self.sheet():
            self.desk.line(line.replace(b'@NOW', STILL))
        to.retrieve(to.put(wk1.write(self.desk.sheet.snapshot())))
        for _ in range(self.r.randrange(1, 9)):
            to.type(self.pointed() + (self.pointed() if self.r.randrange(4) else b'') + self.panel() + b'{BREAK}')

    def any_bytes(self):
        """A text of any bytes, short or long."""
        return typed(bytes(self.r.choice(TEXT_BYTES) for _ in range(self.r.choice([1, 5, 5, 30, 30, 100, 239]))))

    def steps(self):
        """Keys that go through a line or a menu."""
        r = self.r
        return r.choice([b'', b'', b'{HOME}', b'{END}', b'{LEFT}', b'{RIGHT}', b'{LEFT %d}' % r.choice([1, 12, 40]),
                         b'{HOME}{RIGHT %d}' % r.choice([1, 12, 79])])

    def arrows(self):
        """Keys that steer a span: arrows and the full stop."""
        r = self.r
        return b''.join(r.choice([b'{UP}', b'{DOWN}', b'{LEFT}', b'{RIGHT}', b'{DOWN 3}', b'.'])
                        for _ in range(r.randrange(1, 4)))

    def panel(self):
        """Keys that come to any mode, with texts of any length."""
        r = self.r
        return r.choice([
            lambda: r.choice([b'', b'{END}']), lambda: r.choice([b"'", b'x', b'^', b'\\']) + self.any_bytes(),
            lambda: r.choice([b'1', b'+', b'@']) + self.any_bytes(),
            lambda: r.choice([b"'", b'1']) + self.any_bytes() + b'{EDIT}' + self.steps(), lambda: r.choice(PROMPTS)
            + self.any_bytes() + self.steps(),
            lambda: r.choice([b'+', b'@SUM(A1,', b'1' * r.choice([30, 77, 225]) + b'+']) + self.arrows(),
            lambda: r.choice(POINTED) + self.arrows(),
            lambda: r.choice(MENUS) + self.steps(), lambda: r.choice(FAILING)])()


def screens(r):
    """Some 2,000 screens of wider sheets, in every mode."""
    of = Screens(r)
    return joined(of.scene for _ in range(450))
