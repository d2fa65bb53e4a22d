"""What worked examples are made with: a run, what is asked of it, and records of worksheet files."""
from ..model import address, wk1
from ..model.cli import run
from ..model.commands import MESSAGES

ROWS = []


def row(name):
    """Marks a worked example of this name."""
    def add(f):
        ROWS.append((name, f))
        return f
    return add


def eq(got, want, what=''):
    """Fails where what was got isn't what is wanted."""
    if got != want:
        raise AssertionError('%s: got %r, want %r' % (what, got, want))


def c(name):
    """The cell of a name."""
    return address.read_cell(name.encode())


def value(r, name):
    """The value of a cell when a run ended."""
    st = r.session.sheet.cells.get(c(name))
    return st.value if st is not None else ('blank',)


def num(r, name):
    """A cell's value in millionths, or the value itself where it is no number."""
    v = value(r, name)
    return v[1] if v[0] == 'num' else v


def text(r, name):
    """A cell's entry as it would be edited."""
    return r.session.sheet.text_of(c(name))


def content(r, name):
    """What a cell holds."""
    return r.session.sheet.content(c(name))


def mode(r):
    """The mode that the last screen shows."""
    return r.frames[-1][0][73:80].strip() if r.frames else b'READY'


def message(r):
    """The message in the last line of the last screen."""
    return r.frames[-1][24][:50].rstrip()


M = 1_000_000


def n(x):
    """A number in millionths."""
    return int(round(x * M)) if not isinstance(x, int) else x * M


def want(r, name, whole):
    """A cell's value must be this whole number."""
    eq(num(r, name), whole * M, name)


def error(r, number):
    """A run must show the error of this number."""
    eq(mode(r), b'ERROR', 'mode')
    eq(message(r), MESSAGES[number].encode(), 'message')


def ok(keys, words=(), files=None, clock=None, failing=None, kinds=('pages',), status=0):
    """A run of keys, which must end with this status."""
    r = run(list(words), keys, files, clock, failing, kinds)
    eq(r.status, status, 'status')
    return r


def rec(kind, body):
    """A record of a worksheet file."""
    return bytes([kind & 255, kind >> 8, len(body) & 255, len(body) >> 8]) + body


BOF = bytes.fromhex('000002000604')
EOF_ = bytes.fromhex('01000000')


def formula_record(code, col=0, rw=0):
    """The record of a formula's code in a cell."""
    return rec(0x10, bytes([0xFF, col & 255, col >> 8, rw & 255, rw >> 8]) + bytes(8)
               + bytes([len(code) & 255, len(code) >> 8]) + code)


def fault(data, *wanted):
    """The fault with which a file must be refused."""
    try:
        wk1.read(data)
    except wk1.Wk1Fault as f:
        eq((f.number,) + tuple(f.numbers), wanted, 'fault')
        return
    raise AssertionError('accepted, want %r' % (wanted,))


def q(t):
    """A macro text as typed keys."""
    return t.replace('{', '\0').replace('}', '\1').replace('~', '\2').replace('\0', '{{}').replace('\1', '{}}') \
        .replace('\2', '{~}')


def macro(cells, name='A', after='{ALT A}', first='D1'):
    """A run of macro text in cells, one below the other, with what is typed behind it."""
    k = ''
    for at, t in cells:
        k += "{GOTO}%s~'%s~" % (at, q(t))
    return k + '{GOTO}%s~/RNC\\%s~~{HOME}' % (first, name) + after
