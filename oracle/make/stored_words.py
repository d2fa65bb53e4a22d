"""Stored runs of words: key notation, and macros' texts. A line of worked/words is a text of key notation, in
hexadecimal digits."""
from ..model.keys import COMMANDS, NAMES as KEYS, SLASH
from ..model.names import Names
from .cases import TEXT_BYTES, any_case, broken, worked
from .runs import Run
from .stored_parts import file_of, in_parts, of_label

BAD_WORDS = [b'{UNDO 2}', b'{DOWN 0}', b'{DOWN 10000}', b'{DOWN  2}', b'{DWN}', b'}', b'{}', b'{ALTA}', b'{ALT  A}',
             b'{ALT @}', b'{ALT [}']
ARGUMENTS = [b'A1', b'"a}b"', b'@SUM(A1,B2)', b'3', b'N', b'"', b'(', b'', b'A1..B2']
# the macros of a file: their letters, and the row from which on they stand
LETTERS = b'ABCDEFGHIJKLMNOPQRSTUVWXYZ'
ROW = 30
# so many units of macros are run
STEPS = 400


def key_word(r):
    """A word of keys."""
    name = r.choice([n for _, ns in KEYS for n in ns])
    return r.choice([
        lambda: b'{' + any_case(r, name) + b'}', lambda: b'{' + any_case(r, name) + b'}',
        lambda: b'{' + any_case(r, name) + b' %d}' % r.choice([1, 2, 9, 10, 99, 100, 9999, r.randrange(1, 10000)]),
        lambda: b'{' + any_case(r, b'ALT ' + bytes([r.randrange(65, 91)])) + b'}',
        lambda: r.choice([b'{BREAK}', b'{UNDO}', b'{break}', b'{~}', b'{{}', b'{}}', b'~', b'\r\n', b'\n']),
        lambda: r.choice([*BAD_WORDS, bytes([r.randrange(256)])]) if r.randrange(3) == 0 else b'~',
        lambda: bytes([r.choice(TEXT_BYTES)]) if r.randrange(2) else bytes([r.randrange(48, 123)])])()


def macro_word(r):
    """A word of a macro's text."""
    listed = lambda: b' ' + r.choice([b',', b';']).join(r.choice(ARGUMENTS) for _ in range(r.randrange(1, 4)))
    args = lambda: r.choice([b'', b' ', listed()])
    return r.choice([
        lambda: b'{' + any_case(r, r.choice(COMMANDS)) + args() + b'}',
        lambda: b'{' + any_case(r, r.choice([b'PAY', b'NET PAY', b'TO"TAL', b'\\A', b'Q'])) + args() + b'}',
        lambda: b'{' + any_case(r, r.choice([n for _, ns in KEYS for n in ns])) + args() + b'}',
        lambda: (r.choice([b'/X', b'/x']) + bytes([r.choice([*SLASH, ord('Z'), ord('i')])])
                 + r.choice([b'A1~', b'a~b~', b'', b'~~'])),
        lambda: r.choice([b'~', b'{~}', b'{{}', b'{}}', b'}', b'{', b'/', b'/WC', b'"', bytes([r.randrange(256)])]),
        lambda: bytes([r.randrange(32, 127)])])()


def key_text(r):
    """A text of key notation, which may be broken or cut short."""
    text = b''.join(key_word(r) for _ in range(r.randrange(1, 6)))
    if r.randrange(6) == 0:
        return broken(r, text)
    return text[:-r.randrange(1, 4)] if r.randrange(20) == 0 else text


def macro_text(r):
    """A macro's text, which may be broken."""
    text = b''.join(macro_word(r) for _ in range(r.randrange(1, 7)))
    return (broken(r, text) if r.randrange(4) == 0 else text)[:240]


def macros(texts):
    """A run of macros, each of which is started where it can be."""
    names, cells, keys = Names(), {}, b''
    for col, (letter, text) in enumerate(zip(LETTERS, texts)):
        names.create(b'\\%c' % letter, ((col, ROW), (col, ROW)))
        cells[col, ROW] = of_label(text)
        keys += b'{ALT %c}{ESC}{BREAK}' % letter
    return Run(['--file', 'START', '--steps', str(STEPS)], keys, {'START.WK1': file_of(cells, names=names)})


def words(r):
    """The worked texts of key notation and 3,000 more, each by itself, and 3,000 macros' texts."""
    for text in [bytes.fromhex(line.decode())
                 for line in worked('words').splitlines()] + [key_text(r) for _ in range(3000)]:
        yield Run(['--show', 'last'], text, {})
    for texts in in_parts([macro_text(r) for _ in range(3000)], len(LETTERS)):
        yield macros(texts)
