"""Macros that open, read and write text files, over files of any bytes, and the files and folders that they meet."""

NAMES = ['A.TXT', 'B.TXT', 'LOG.TXT', 'A.PRN']
LENGTHS = [0, 1, 5, 80, 200, 238, 239, 240, 241, 242, 243, 479, 480, 481]
ENDINGS = [b'\r\n', b'\n', b'\r\n', b'\n', b'\r', b'\r\r\n', b'\n\r', b'']
# arguments that are of their kind, and those that aren't
OPENED = [b'A', b'a', b'LOG', b'"log"', b'A.TXT', b'b.txt', b'A.PRN', b'+B1', b'B1', b'+"A"&""', b'NONE', b'B.PRN']
NO_NAMES = [b'A.WK1', b'A B', b'', b'5', b'@NA', b'TOO_LONG9', b'A.', b'A:string', b'../A', b'A.B']
ACCESSES = [b'R', b'W', b'M', b'r', b'w', b'm']
COUNTS = [b'0', b'1', b'2', b'5', b'80', b'239', b'240', b'1.9', b'-0.5', b'A1', b'A1+1']
NO_COUNTS = [b'241', b'-1', b'"x"', b'@ERR', b'1+', b'']
PLACES = [b'A1', b'A2', b'B1', b'C3', b'TABLE', b'COUNT', b'D2', b'E1', b'B2']
NO_PLACES = [b'NONE', b'A1 ', b'$A$1', b'', b'5']
TEXTS = [b'"ab"', b'"one,two"', b'one', b'+A1', b'+A2', b'+A2&"x"', b'@REPEAT("xy",120)', b'@STRING(A1,2)', b'5:string',
         b'A2:value', b'""', b'@CHAR(10)', b'@CHAR(13)&"z"', b'B1']
NO_TEXTS = [b'5', b'+A1+1', b'@NA', b'1/0', b'A9']
POSITIONS = [b'0', b'1', b'2', b'5', b'240', b'A1', b'1.9', b'-0.9', b'242', b'100000']


def some_bytes(r):
    """What a text file holds: lines of any bytes, some as long as a text may be or longer, with endings of every
    kind."""
    out = b''
    for _ in range(r.choice([0, 1, 2, 3, 5])):
        size = r.choice(LENGTHS)
        kind = r.randrange(4)
        if kind == 0:
            line = bytes(r.randrange(256) for _ in range(size))
        elif kind == 1:
            line = bytes(r.choice(b'ab ,;"1{}~') for _ in range(size))
        else:
            line = b'%d,' % r.randrange(100) + b'x' * max(size - 3, 0)
        out += line + r.choice(ENDINGS)
    return out


def some_files(r):
    """Text files by their names, and None for a folder, at which calls fail."""
    out = {}
    for name in NAMES:
        pick = r.randrange(8)
        if pick < 4:
            out[name] = some_bytes(r)
        elif pick == 4:
            out[name] = None
    return out


class TextFiles:
    """Small programs of the words for text files."""

    def __init__(self, r):
        self.r = r

    def of(self, good, bad):
        """Mostly one of what is good, else one of what is bad."""
        r = self.r
        return r.choice(bad if r.randrange(24) == 0 else good)

    def open(self, access=None):
        """An OPEN, of any access where none is given."""
        return b'{OPEN ' + self.of(OPENED, NO_NAMES) + b',' + (access
                                                               or self.of(ACCESSES, [b'X', b'', b'RW', b'"R"'])) + b'}'

    def place(self):
        """A place that a word writes into."""
        return self.of(PLACES, NO_PLACES)

    def word(self):
        """Any word on text files."""
        r = self.r
        return r.choice([
            self.open, lambda: b'{CLOSE}', lambda: b'{READLN ' + self.place() + b'}', lambda: b'{READLN ' + self.place()
            + b'}',
            lambda: b'{READ ' + self.of(COUNTS, NO_COUNTS) + b',' + self.place() + b'}',
            lambda: b'{WRITE ' + self.of(TEXTS, NO_TEXTS) + b'}', lambda: b'{WRITELN ' + self.of(TEXTS, NO_TEXTS)
            + b'}',
            lambda: b'{writeln ' + self.of(TEXTS, NO_TEXTS) + b'}', lambda: b'{FILESIZE ' + self.place() + b'}',
            lambda: b'{GETPOS ' + self.place() + b'}', lambda: b'{SETPOS ' + self.of(POSITIONS, NO_COUNTS) + b'}',
            lambda: r.choice([b'{LET A1,A1+1}', b'{LET A2,"t"}', b'{BLANK A2}', b'{CALC}', b'x~', b'{DOWN}'])])()

    def soup(self):
        """Words in cells one below another, each mostly behind the one that it goes on from."""
        r = self.r
        cells = {b'D%d' % row: b''.join(self.word() for _ in range(r.choice([1, 1, 1, 2])))
                 for row in range(2, r.choice([5, 9, 12]))}
        cells[b'D1'] = r.choice([b'', b'', b'{ONERROR E1,A2}', b'{ONERROR D4}']) + self.open()
        cells[b'E1'] = r.choice([b'{LET C3,"caught"}', b'{CLOSE}', self.open(), b'{READLN A3}'])
        return cells

    def copied(self):
        """Lines that are read to the file's end, and written elsewhere."""
        r = self.r
        read = r.choice([b'{READLN A2}', b'{READ 80,A2}', b'{READ 240,A2}'])
        return {b'D1': b'{OPEN LOG,R}', b'D2': read + b'{LET C1,"end"}{BRANCH E3}', b'D3': b'{LET A1,A1+1}' + r.choice([
                b'{PUT E1.E99,0,A1+20,+A2}', b'{LET B1,+B1&A2}', b'{GETPOS B2}']),
                b'D4': r.choice([b'{BRANCH D2}', b'{IF A1<5}{BRANCH D2}']),
                b'E3': b'{OPEN ' + r.choice([b'B', b'LOG', b'A.PRN']) + b',' + r.choice([b'W', b'M'])
                + b'}{LET C2,"none"}',
                b'E4': b'{WRITELN +A2}', b'E5': b'{WRITE @REPEAT("ab",A1)}',
                b'E6': r.choice([b'{CLOSE}', b'{OPEN A,R}', b'{FILESIZE B2}']),
                b'E7': b'{LET C3,"behind"}'}

    def placed(self):
        """Writes over and past what the file holds, at positions that are told and set."""
        r = self.r
        return {b'D1': b'{OPEN ' + r.choice([b'A', b'LOG', b'B']) + b',M}{OPEN A,W}', b'D2': b'{FILESIZE A1}{LET A1,3}',
                b'D3': b'{SETPOS ' + r.choice([b'A1', b'A1-1', b'1', b'0', b'A1+1']) + b'}', b'D4': b'{WRITE '
                + r.choice(TEXTS) + b'}', b'D5': b'{GETPOS B1}',
                b'D6': b'{SETPOS 0}', b'D7': b'{READLN A2}', b'D8': b'{WRITELN ' + r.choice(TEXTS) + b'}',
                b'D9': r.choice([b'{CLOSE}', b'', b'{OPEN B,R}']),
                b'D10': b'{CLOSE}{LET C3,"twice"}'}

    def held(self):
        """A file that stays attached behind its macro, which another one, or the run's end, finds."""
        r = self.r
        return {b'D1': b'{OPEN LOG,' + r.choice(ACCESSES) + b'}', b'D2': self.word(),
                b'D3': r.choice([b'{QUIT}', b'', b'{NOWORD}', b'/QY', b'{BRANCH E1}']),
                b'E1': self.word() + self.word(), b'E2': self.word(), b'E3': r.choice([b'{CLOSE}', self.word()])}

    def program(self):
        """A macro that opens a file and works on it."""
        r = self.r
        return r.choice([self.soup, self.soup, self.soup, self.copied, self.copied, self.placed, self.placed,
                         self.held])()
