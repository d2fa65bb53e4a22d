"""Key notation.  Plain and slow: a word is tested against the whole grammar at each byte."""
import re

# Words fold and stand in braces.  The first name of each key is the one that GET puts.
NAMES = [
    ('up', [b'UP', b'U']), ('down', [b'DOWN', b'D']), ('left', [b'LEFT', b'L']), ('right', [b'RIGHT', b'R']),
    ('home', [b'HOME']), ('end', [b'END']), ('pgup', [b'PGUP']), ('pgdn', [b'PGDN']),
    ('bigleft', [b'BIGLEFT']), ('bigright', [b'BIGRIGHT']), ('esc', [b'ESC', b'ESCAPE']),
    ('bs', [b'BS', b'BACKSPACE']), ('del', [b'DEL', b'DELETE']), ('edit', [b'EDIT']), ('name', [b'NAME']),
    ('abs', [b'ABS']), ('goto', [b'GOTO']), ('window', [b'WINDOW']), ('query', [b'QUERY']),
    ('table', [b'TABLE']), ('calc', [b'CALC']), ('graph', [b'GRAPH']),
]
BY_NAME = {n: (k,) for k, ns in NAMES for n in ns}
FIRST_NAME = {k: ns[0] for k, ns in NAMES}

ENTER = ('enter',)
BREAK = ('break',)
UNDO = ('undo',)


def byte_key(b):
    """The key of a byte."""
    return ('byte', b)


def fold(data):
    """A to z onto A to Z."""
    return bytes(b - 32 if 97 <= b <= 122 else b for b in data)


TEXTS = {b'~}': byte_key(ord('~')), b'{}': byte_key(ord('{')), b'}}': byte_key(ord('}'))}
IN_BRACES = {key[1]: b'{' + word for word, key in TEXTS.items()}

# every word without its brace, for the prefix test
_PLAIN = [n + b'}' for n in BY_NAME] + [b'BREAK}', b'UNDO}']


def typed(text):
    """The key notation of typed bytes."""
    return b''.join(IN_BRACES.get(byte) or bytes([byte]) for byte in text)


def status(buf):
    """'prefix', ('key', key, count) or 'bad' for the bytes of one word begun."""
    first = buf[0]
    if first != ord('{'):
        if len(buf) > 1:
            return 'bad'
        if first == ord('~'):
            return ('key', ENTER, 1)
        if first == ord('}') or first < 32:
            return 'bad'
        return ('key', byte_key(first), 1)
    rest = bytes(buf[1:])
    if rest in TEXTS:
        return ('key', TEXTS[rest], 1)
    up = fold(rest)
    if up.endswith(b'}') and up[:-1] in BY_NAME:
        return ('key', BY_NAME[up[:-1]], 1)
    if up == b'BREAK}':
        return ('key', BREAK, 1)
    if up == b'UNDO}':                       # in key bytes alone, without a number
        return ('key', UNDO, 1)
    m = re.fullmatch(rb'ALT ([A-Z])\}', up)
    if m:
        return ('key', ('alt', m.group(1)[0]), 1)
    m = re.fullmatch(rb'([A-Z]+) ([1-9][0-9]{0,3})\}', up)
    if m and m.group(1) in BY_NAME:
        return ('key', BY_NAME[m.group(1)], int(m.group(2)))
    # a prefix of some word?
    if any(t.startswith(rest) for t in TEXTS):
        return 'prefix'
    if any(p.startswith(up) for p in _PLAIN):
        return 'prefix'
    if b'ALT '.startswith(up) or re.fullmatch(rb'ALT [A-Z]', up):
        return 'prefix'
    m = re.fullmatch(rb'([A-Z]+) ([1-9][0-9]{0,3})?', up)
    if m and m.group(1) in BY_NAME:
        return 'prefix'
    return 'bad'


class KeyReader:
    """feed, at_rest, taken."""

    def __init__(self):
        self.buf = bytearray()
        self.taken = 0
        self.bad = None

    def feed(self, byte):
        """A byte: 'more', ('key', key, count) or ('bad', the place of the word)."""
        before = self.taken
        self.taken += 1
        if self.bad is not None:             # after Bad the reader answers the same
            return ('bad', self.bad)
        if not self.buf and byte in (13, 10):  # CR and LF between words are passed over
            return 'more'
        self.buf.append(byte)
        s = status(self.buf)
        if s == 'bad':
            self.bad = before
            return ('bad', before)
        if s == 'prefix':
            return 'more'
        self.buf = bytearray()
        return s

    def at_rest(self):
        """Whether no word is begun."""
        return not self.buf


def keys_of(data):
    """The list of (key, count), then None or the offset of the bad word."""
    r = KeyReader()
    out = []
    for b in data:
        f = r.feed(b)
        if f == 'more':
            continue
        if f[0] == 'bad':
            return out, f[1]
        out.append((f[1], f[2]))
    return out, (None if r.at_rest() else len(data))


def get_text(key):
    """What GET puts for a key; None for a key that GET isn't given (UNDO, BREAK)."""
    if key[0] == 'byte':
        return bytes([key[1]])
    if key == ENTER:
        return b'~'
    if key[0] == 'alt':
        return b'{ALT ' + fold(bytes([key[1]])) + b'}'
    return b'{' + FIRST_NAME[key[0]] + b'}'


# ---------------------------------------------------------------- macro text

# The command words, in the table's order, read word by word; the nine words of text files come last.
COMMANDS = [b'BRANCH', b'DISPATCH', b'DEFINE', b'RETURN', b'RESTART', b'QUIT', b'IF', b'FOR', b'FORBREAK', b'LET',
            b'PUT', b'BLANK', b'CONTENTS', b'ONERROR', b'GET', b'GETLABEL', b'GETNUMBER', b'LOOK', b'MENUBRANCH',
            b'MENUCALL', b'WAIT', b'?', b'BEEP', b'INDICATE', b'PANELON', b'PANELOFF', b'WINDOWSON', b'WINDOWSOFF',
            b'BREAKON', b'BREAKOFF', b'RECALC', b'RECALCCOL',
            b'OPEN', b'CLOSE', b'READ', b'READLN', b'WRITE', b'WRITELN', b'FILESIZE', b'GETPOS', b'SETPOS']
FILE_WORDS = COMMANDS[-9:]

# /X words: the letter, the command, the number of `~` of its form
SLASH = {ord('I'): (b'IF', 1), ord('G'): (b'BRANCH', 1), ord('C'): (b'/XC', 1), ord('R'): (b'RETURN', 0),
         ord('Q'): (b'QUIT', 0), ord('M'): (b'MENUBRANCH', 1), ord('L'): (b'GETLABEL', 2),
         ord('N'): (b'GETNUMBER', 2)}


def split_args(rest, quoted=False):
    """Arguments are separated by `,` or `;` outside quotes and, this project's choice, outside round brackets. None (no
    space after the word) is no argument. Quotes are counted from the `{`, so a call's name may have opened one."""
    if rest is None:
        return []
    out = [bytearray()]
    depth = 0
    for b in rest:
        if b == ord('"'):
            quoted = not quoted
        if b == ord('(') and not quoted:
            depth += 1
        if b == ord(')') and not quoted and depth > 0:
            depth -= 1
        if b in (ord(','), ord(';')) and not quoted and depth == 0:
            out.append(bytearray())
        else:
            out[-1].append(b)
    return [bytes(a) for a in out]


class Word:
    """One macro word: kind in 'key','repeat','command','call','end','bad'; next is the offset after it."""

    def __init__(self, kind, next_, key=None, name=None, args=None):
        self.kind = kind
        self.next = next_
        self.key = key
        self.name = name
        self.args = args


def slash_word(text, offset):
    """A /X command at an offset, which lacks a `~` of its form (M3), or none."""
    letter = fold(text[offset + 2:offset + 3])
    if fold(text[offset + 1:offset + 2]) != b'X' or not letter or letter[0] not in SLASH:
        return None
    name, tildes = SLASH[letter[0]]
    at, args = offset + 3, []
    for _ in range(tildes):
        end = text.find(b'~', at)
        if end < 0:
            return Word('bad', len(text))
        args.append(bytes(text[at:end]))
        at = end + 1
    return Word('command', at, name=name, args=args)


def closing_at(text, offset):
    """Where the first `}` outside quotes stands, or none."""
    quoted = False
    for at in range(offset, len(text)):
        if text[at] == ord('"'):
            quoted = not quoted
        if text[at] == ord('}') and not quoted:
            return at
    return None


def brace_word(text, offset):
    """The word in braces at an offset; an unclosed brace is M3."""
    three = bytes(text[offset + 1:offset + 3])
    if three in TEXTS:
        return Word('key', offset + 3, key=TEXTS[three])
    end = closing_at(text, offset + 1)
    if end is None:
        return Word('bad', len(text))
    name, space, rest = bytes(text[offset + 1:end]).partition(b' ')
    name, rest = fold(name), rest if space else None
    if name in BY_NAME:
        if rest is None:
            return Word('key', end + 1, key=BY_NAME[name])
        return Word('repeat', end + 1, key=BY_NAME[name], args=split_args(rest))
    if name in COMMANDS:
        return Word('command', end + 1, name=name, args=split_args(rest))
    return Word('call', end + 1, name=name, args=split_args(rest, name.count(b'"') % 2 == 1))


def word_at(text, offset):
    """The macro word at an offset; one past the present text is its end, and a bare `}` is M3."""
    if offset >= len(text):
        return Word('end', len(text))
    b = text[offset]
    if b == ord('~'):
        return Word('key', offset + 1, key=ENTER)
    if b == ord('}'):
        return Word('bad', offset + 1)
    if b == ord('{'):
        return brace_word(text, offset)
    return (slash_word(text, offset) if b == ord('/') else None) or Word('key', offset + 1, key=byte_key(b))
