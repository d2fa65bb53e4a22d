"""The top call: words, order of work, statuses, notes, displays.  And the command-line program."""
import argparse
import os
import re
import sys

from . import fixed, gen, wk1
from .address import cell_text, span_text
from .built import leave_out
from .commands import Desk
from .keys import KeyReader
from .outside import (Failed, HostDisplay, ListKeys, MapShelf, ListClock, ListNotes, Recorder, Writer, page, send,
                      EMPTY_GRID, file_name)
from .session import Session
from .sheet import Sheet

LIMIT = 67108864
WORDS = {b'--file', b'--steps', b'--show', b'--count', b'--gen', b'--strict'}
# words that take no value
FLAGS = {'count', 'strict'}


class BadWord(Exception):
    """A word that is refused."""

    def __init__(self, word):
        self.word = word


def read_words(words):
    """--file NAME, --steps N, --show KIND, --count, --gen N, --strict, in any order, each at most once; a value in the
    next word or after `=`.  BadWord holds the refused word, or the value alone where a value is refused."""
    out = {}
    i = 0
    while i < len(words):
        w = words[i]
        i += 1
        name, eq, value = w.partition(b'=')
        if name not in WORDS:
            raise BadWord(w)
        key = name[2:].decode()
        if key in out or (key == 'file' and 'gen' in out) or (key == 'gen' and 'file' in out):
            raise BadWord(w)
        if key in FLAGS:
            if eq:
                raise BadWord(w)
            out[key] = True
            continue
        if not eq:
            if i >= len(words):              # the option whose value is missing
                raise BadWord(w)
            value = words[i]
            i += 1
        if key == 'file':
            got = None if value.startswith(b'-') else file_name(value)
        elif key == 'show':
            got = value.decode() if value in (b'pages', b'ansi', b'last') else None
        else:
            top = 10_000_000 if key == 'steps' else 8000
            got = int(value) if re.fullmatch(rb'[1-9][0-9]{0,8}', value) and int(value) <= top else None
        if got is None:
            raise BadWord(value)
        out[key] = got
    return out


class Refused(Exception):
    """The run ends before its first step, with a status and a note."""

    def __init__(self, status, note):
        super().__init__(status, note)
        self.status, self.note = status, note


class Outcome:
    """Status, steps, and the session where there was one."""

    def __init__(self):
        self.status, self.steps, self.session = 0, 0, None


class KeyFeed:
    """The keys of a run, each as often as its word tells; `end` is the status and the note where they end."""

    def __init__(self, keys):
        self.keys, self.reader = keys, KeyReader()
        self.repeat = None                   # [key, times left]
        self.end = None

    def key(self):
        """The next key, which `take` takes, or None where the keys end; bytes are read until a key is there."""
        while self.repeat is None:
            try:
                byte = self.keys.next()
            except Failed:
                self.end = (5, b'keys failed')
                return None
            if byte is None:
                self.end = (0, None) if self.reader.at_rest() else (4, b'bad key word at byte %d' % self.reader.taken)
                return None
            fed = self.reader.feed(byte)
            if fed[0] == 'bad':
                self.end = (4, b'bad key word at byte %d' % fed[1])
                return None
            if fed != 'more':
                self.repeat = [fed[1], fed[2]]
        return self.repeat[0]

    def take(self):
        """The key is taken once."""
        self.repeat[1] -= 1
        if self.repeat[1] == 0:
            self.repeat = None


def opened(opts, shelf):
    """The sheet with which a run begins: that of a file, a generated one, or a fresh one."""
    if 'gen' in opts:
        return Sheet.restore(gen.generate(opts['gen']))
    if 'file' not in opts:
        return Sheet()
    name = opts['file']
    try:
        data = shelf.get(name)
    except Failed:
        raise Refused(6, name.encode() + b': disk error')
    if data is None:
        raise Refused(2, name.encode() + b': no such file')
    try:
        return Sheet.restore(wk1.read(data))
    except wk1.Wk1Fault as f:
        raise Refused(2, name.encode() + b': ' + fault_text(f))


def to_each(displays, failed, call):
    """A call on each display in order; one that fails goes to the failed ones."""
    for display in list(displays):
        try:
            call(display)
        except Failed:
            displays.remove(display)
            failed.append(display)


def drive(out, opts, keys, shelf, clock, show):
    """The steps of a run: the status and the note with which they end. The limit is tested behind the reading of a key,
    and a screen is shown after each step."""
    session, feed, limit = out.session, KeyFeed(keys), opts.get('steps', 1_000_000)
    before, done = EMPTY_GRID, 'more'
    while done != 'quit':
        event = ('key', feed.key()) if session.wants_key() else ('unit',)
        if feed.end is not None:
            status, note = feed.end
            return (status, note) if status or 'strict' not in opts else ended_in(out, feed)
        if out.steps == limit:
            return 3, b'stopped after %d steps' % limit
        if event[0] == 'key':
            feed.take()
        done = session.step(event, clock.read(), shelf)
        out.steps += 1
        after = session.grid()
        show(before, after)
        before = after
        if done != 'quit' and 'strict' in opts and session.refused is not None:
            return 10, b'step %d at byte %d: %s' % (out.steps, feed.reader.taken, session.refused)
    return 0, None


def ended_in(out, feed):
    """A strict run ends in READY, with no macro running."""
    session = out.session
    if session.mode == 'READY' and not session.engine.running:
        return 0, None
    left_in = b'CMD' if session.mode == 'READY' else session.mode.encode()
    return 10, b'step %d at byte %d: ended in %s' % (out.steps, feed.reader.taken, left_in)


def counts(opts, session):
    """The notes in front of the last one."""
    if session is None:
        return
    if 'gen' in opts:
        yield b'rows %d' % opts['gen']
        yield b'C%d %s' % (opts['gen'], chain_text(session.sheet, opts['gen']))
    if 'count' in opts:
        yield b'evaluations %d' % session.evaluations()


def noted(lines, notes):
    """Whether all lines were written; after a failed one no more are."""
    for line in lines:
        try:
            notes.write(b'1-2-3: ' + line + b'\n')
        except Failed:
            return False
    return True


def top_call(words, keys, shelf, clock, displays, failed, notes):
    """One run: words, keys, screens and notes.  Changes the lists displays and failed; returns the outcome with status
    and the session."""
    out, opts, before_failed = Outcome(), {}, len(failed)
    try:
        opts = read_words(words)
        displays[:] = [d for d in displays if d.kind == opts.get('show', 'pages')]    # the others are dropped
        session = Session(Desk(opened(opts, shelf)))
        session.load(clock.read())
        out.session = session
        show = lambda before, after: to_each(displays, failed, lambda d: send(before, after, d))
        status, note = drive(out, opts, keys, shelf, clock, show)
        to_each(displays, failed, lambda d: d.close())
    except BadWord as e:
        status, note = 1, b'bad word: ' + e.word
    except Refused as e:
        status, note = e.status, e.note
    if status == 0 and len(failed) > before_failed:
        status, note = 7, b'display failed'
    lines = [*counts(opts, out.session), *([note] if note is not None else [])]
    out.status = status if noted(lines, notes) else 8
    return out


def fault_text(f):
    """A fault of F: its number and the numbers it carries, function codes in two hexadecimal digits."""
    numbers = list(f.numbers)
    parts = [b'F%d' % f.number]
    for i, n in enumerate(numbers):
        if f.number == 8 and i == 1:
            parts.append(b'%02X' % n)
        else:
            parts.append(b'%d' % n)
    return b' '.join(parts)


def chain_text(sheet, n):
    """V in the note CN V."""
    st = sheet.cells.get((2, n - 1))
    v = st.value if st is not None else ('blank',)
    if v[0] == 'num':
        return fixed.plain(v[1])
    if v[0] == 'str':
        return v[1]
    return {'err': b'ERR', 'na': b'NA', 'blank': b''}[v[0]]


class Result:
    """status, frames, notes, files, evaluations, puts (puts, bytes) per frame, displays, failed, session."""


def to_words(words):
    """Words as bytes."""
    return [os.fsencode(w) for w in words]


def run(words, key_bytes, files=None, clock=None, failing=None, kinds=('pages',)):
    """One run in memory.  failing: {'keys': [..], 'shelf': [..], 'notes': [..], 'displays': [[..], ..]}."""
    failing = failing or {}
    if isinstance(key_bytes, str):
        key_bytes = key_bytes.encode('latin-1')
    keys = ListKeys(key_bytes, failing.get('keys', ()))
    shelf = MapShelf(files, failing.get('shelf', ()))
    clock = ListClock(clock or [(None, 0)])
    notes = ListNotes(failing.get('notes', ()))
    fails = failing.get('displays', [])
    made = [Recorder(k, fails[i] if i < len(fails) else ()) for i, k in enumerate(kinds)]
    displays = list(made)
    failed = []
    o = top_call(to_words(words), keys, shelf, clock, displays, failed, notes)
    r = Result()
    r.status = o.status
    r.made = made
    r.displays = displays
    r.failed = failed
    r.frames = made[0].frames if made else []
    r.per_frame = made[0].per_frame if made else []
    r.puts = made[0].puts if made else 0
    r.bytes_put = made[0].bytes_put if made else 0
    r.notes = notes.bytes
    r.files = shelf.files
    r.shelf_log = shelf.log
    r.session = o.session
    r.steps = o.steps
    r.evaluations = o.session.evaluations() if o.session is not None else None
    r.readings = clock.taken
    r.keys_taken = keys.at
    return r


# ---------------------------------------------------------------- the program

def parse_clock(text):
    """"DAY:SECOND,DAY:SECOND,none"; none is no day and second 0, `:S` alone no day and second S."""
    out = []
    for part in text.split(','):
        part = part.strip()
        if part in ('none', ''):
            out.append((None, 0))
        else:
            day, _, second = part.partition(':')
            out.append((None if day in ('none', '') else int(day), int(second or 0)))
    return out


def program_bytes(r, kind):
    """What PageDisplay, AnsiDisplay or LastDisplay writes."""
    display = HostDisplay(kind, Writer())
    before = EMPTY_GRID
    for frame in r.frames:
        send(before, frame, display)
        before = frame
    if r.made[0].closed:
        display.close()
    return display.writer.bytes


def dump(r):
    """The last state as lines: status, steps, evaluations, mode, settings, names, widths and each cell."""
    s = r.session.sheet
    lines = [b'status %d steps %d evaluations %d readings %d bytes %d' % (r.status, r.steps, r.evaluations, r.readings,
                                                                         r.keys_taken)]
    lines.append(b'mode ' + r.session.mode.encode() + b' macro %d history %d' % (r.session.engine.running,
                                                                                len(r.session.history)))
    lines.append(repr(s.settings).encode() + b' circ %d stale %d' % (s.circ, s.stale))
    lines.append(b'dirty ' + b' '.join(cell_text(c) for c in sorted(s.dirty, key=lambda c: (c[1], c[0]))))
    lines += [b'name ' + n + b' ' + span_text(span) for n, span in s.names.items()]
    lines += [b'width %d %d' % w for w in sorted(s.widths.items())]
    lines += [b'hidden %d' % c for c in sorted(s.hidden)]
    for c in sorted(s.cells, key=lambda c: (c[1], c[0])):
        st = s.cells[c]
        v = st.value[0].encode() + (b'' if len(st.value) == 1 else b' ' + (
            st.value[1] if isinstance(st.value[1], bytes) else b'%d' % st.value[1]))
        lines.append(cell_text(c) + b' %02X ' % st.format + v + b' | ' + s.text_of(c))
    for n, (puts, put_bytes) in enumerate(r.per_frame):
        lines.append(b'frame %d puts %d bytes %d' % (n + 1, puts, put_bytes))
    return b'\n'.join(lines) + b'\n'


def parser():
    """The words of the oracle's own, in front of `--`."""
    p = argparse.ArgumentParser(prog='oracle')
    p.add_argument('--keys', default='-')
    p.add_argument('--dir')
    p.add_argument('--clock', default='none')
    p.add_argument('--frames')
    p.add_argument('--pages', action='store_true', help='pages, the default kind of frames')
    p.add_argument('--fail', action='append', default=[],
                   help='KIND:N,N... with KIND keys, shelf, notes or display')
    p.add_argument('--as-program', action='store_true',
                   help='stdout gets exactly what the program writes for the kind of --show (pages, ansi, last)')
    p.add_argument('--state', help='a text dump of the last state goes to this file')
    p.add_argument('--built', action='store_true',
                   help='no more menus, keys and macro words than the program has built')
    return p


def files_in(folder):
    """The files of a folder that a shelf has, by their names; None for what is no file."""
    files = {}
    for n in sorted(os.listdir(folder)):
        path = os.path.join(folder, n)
        ext = n.rpartition('.')[2]
        if ext not in ('WK1', 'PRN', 'TXT') or file_name(os.fsencode(n), ext) != n:
            continue
        files[n] = None
        if os.path.isfile(path):
            with open(path, 'rb') as f:
                files[n] = f.read(LIMIT + 1)
    return files


def put_back(folder, before, after):
    """Leaves in a folder what a run left of its files."""
    for n, content in after.items():
        if before.get(n) != content:
            with open(os.path.join(folder, n), 'wb') as f:
                f.write(content)
    for n in before:
        if n not in after:
            os.remove(os.path.join(folder, n))


def failing_calls(items):
    """The numbers of the calls that fail, by what is called."""
    failing = {}
    for item in items:
        kind, _, numbers = item.partition(':')
        numbers = [int(x) for x in numbers.split(',')]
        if kind == 'display':
            failing.setdefault('displays', []).append(numbers)
        else:
            failing[kind] = numbers
    return failing


def kind_shown(words):
    """The kind of the one display that shows: main hands in one of each kind."""
    kind = 'pages'
    for i, w in enumerate(words):
        if w == '--show' and i + 1 < len(words) and words[i + 1] in ('ansi', 'last'):
            kind = words[i + 1]
        if w in ('--show=ansi', '--show=last'):
            kind = w[7:]
    return kind


def main(argv):
    """Runs the oracle by its words and the program's."""
    cut = argv.index('--') if '--' in argv else len(argv)
    a, words = parser().parse_args(argv[:cut]), argv[cut + 1:]
    if a.built:
        leave_out()
    data = sys.stdin.buffer.read() if a.keys == '-' else open(a.keys, 'rb').read()
    files, kind = files_in(a.dir) if a.dir else {}, kind_shown(words)
    r = run([os.fsencode(w) for w in words], data, files, parse_clock(a.clock), failing_calls(a.fail), (kind,))
    body = b''.join(page(f) for f in r.frames)
    if a.state and r.session is not None:
        with open(a.state, 'wb') as f:
            f.write(dump(r))
    if a.frames:
        with open(a.frames, 'wb') as f:
            f.write(body)
    if a.as_program:
        sys.stdout.buffer.write(program_bytes(r, kind))
    elif not a.frames:
        sys.stdout.buffer.write(body)
    sys.stdout.buffer.flush()
    sys.stderr.buffer.write(r.notes)
    sys.stderr.buffer.flush()
    if a.dir:
        put_back(a.dir, files, r.files)
    return r.status
