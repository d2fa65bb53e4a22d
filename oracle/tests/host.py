"""Worked runs of the program on a host that fails or is odd: keys that can't be read to their end, screens and notes
for which there is too little room, a stated clock, and names under which no plain file stands, or one that nobody may
write. All that the program writes is compared with what the oracle tells, and so are the status and the files left with
their rights.

python3 -B -m oracle.tests.host PROGRAM N [SEED] --clock CLOCK

N random runs of macros that wait while a stated clock goes on come behind them. CLOCK is the library that
scripts/clock.c makes. A line of worked/host has the program's words and its keys, as a bytes literal spells them, and
then, each behind a tab, what is stated of the host:

    keys=fail           behind the keys a read fails
    screens=N, notes=N  there is room for so many bytes, and a write of more fails
    clock=MOMENT,..     the moments that the clock tells, as 1987-06-01T14:05:00, or with *N behind it N times, of which
                        the last is repeated; `none` is a failed reading, and so are all where no clock is stated
    NAME=WHAT           what stands in the folder under a name, as `read_entry` reads it
    N NAME=WHAT         the same, from when the screens of the first N bytes of the keys are there"""
import datetime
import functools
import os
import random
import resource
import shlex
import subprocess
import sys
import tempfile
import time
from typing import NamedTuple, Optional

from ..model.cli import LIMIT, to_words, top_call
from ..model.dates import Moment, day_of
from ..model.outside import Failed, HostDisplay, ListClock, ListKeys, Writer
from ..make.cases import worked
from ..make.data_keys import file_of
from ..make.macro_keys import Programs
from ..make.pool import prepare, processes
from ..make.runs import kind_of, spelled_bytes
from ..make.wait_keys import Waits
from .checks import ended, parser

# the most bytes of a file that are looked at
MOST_BYTES = LIMIT + 1
PAGE_BYTES = 25 * 81 + 5
# where no file can grow, and the most memory that the program is given
END = 1 << 30
# how long a run may take, in seconds
PATIENCE = 120
EPOCH = datetime.datetime(1970, 1, 1)
WRITABLE = 0o222
NEW_RIGHTS = 0o644


class Entry(NamedTuple):
    """What stands under a name: a plain file of so many bytes with its rights, of which these are the first, or
    `folder` or `link NAME`."""
    data: bytes
    size: int = 0
    rights: int = 0
    other: str = ''


class Host(NamedTuple):
    """A run: words, keys, whether a read fails behind them, the room for screens and for notes, the clock's readings,
    the folder, and what of it changes behind how many bytes of the keys."""
    options: list
    keys: bytes
    keys_fail: bool
    room: dict
    clock: list
    folder: dict
    later: Optional[tuple]


class Outcome(NamedTuple):
    """What came of a run."""
    status: int
    screens: bytes
    notes: bytes
    folder: dict


# ---------------------------------------------------------------- lines

def plain(data, rights=NEW_RIGHTS):
    """A plain file."""
    return Entry(data, len(data), rights)


def read_entry(text):
    """`folder`, `link NAME`, or a file: bytes as in worked/runs, or `size N` of zeros, and `rights N` in octal digits
    behind them."""
    text, _, rights = text.partition(' rights ')
    rights = int(rights or '%o' % NEW_RIGHTS, 8)
    if text == 'folder' or text.startswith('link '):
        return Entry(b'', other=text)
    if text.startswith('size '):
        size = int(text[5:])
        return Entry(bytes(min(size, MOST_BYTES)), size, rights)
    return plain(spelled_bytes(text), rights)


def read_reading(text):
    """A reading of the clock, or none where it fails."""
    return None if text == 'none' else datetime.datetime.fromisoformat(text)


def read_readings(text):
    """A reading, as often as it comes."""
    moment, _, times = text.partition('*')
    return [read_reading(moment)] * int(times or 1)


def read_host(line):
    """The run of a line."""
    options, keys, *fields = line.decode().split('\t')
    keys = keys.encode().decode('unicode_escape').encode('latin-1')
    room, folder, clock, later, keys_fail = {}, {}, [None], None, False
    for name, what in (field.split('=', 1) for field in fields):
        if name == 'keys':
            keys_fail = what == 'fail'
        elif name in ('screens', 'notes'):
            room[name] = int(what)
        elif name == 'clock':
            clock = [reading for readings in what.split(',') for reading in read_readings(readings)]
        elif ' ' in name:
            count, name = name.split(' ')
            later = (int(count), name, read_entry(what))
        else:
            folder[name] = read_entry(what)
    return Host(shlex.split(options), keys, keys_fail, room, clock, folder, later)


# ---------------------------------------------------------------- random runs

STARTS = ['1987-06-01T14:05:00', '1987-06-01T23:59:57', '2000-02-28T23:59:59', '1970-01-01T00:00:00',
          '2099-12-31T23:59:55', '2026-03-29T01:59:58']
NAMES = [b'+D1..D3 \\A', b'+E1 \\B']


def some_readings(r):
    """A clock's readings: from a start on it goes on by seconds, and at times stands, leaps, is set back or can't be
    read."""
    moment, out = datetime.datetime.fromisoformat(r.choice(STARTS)), []
    for _ in range(r.choice([1, 10, 40, 120])):
        moment += datetime.timedelta(seconds=r.choice([0, 0, 0, 0, 1, 1, 1, 2, 5]) if r.randrange(30)
                                     else r.choice([60, 3600, 86400, -1, -30, -86400]))
        out.append(None if r.randrange(40) == 0 else moment)
    return out


def some_host(r):
    """A run of a macro that waits, on a stated clock; the limit of steps ends one that waits for ever."""
    waits = Waits(r)
    cells = waits.timed() if r.randrange(4) else waits.program()
    sheet = Programs(r).lines_of(cells)
    sheet[1:1] = NAMES
    options = ['--file', 'SHEET', '--steps', str(r.choice([20, 100, 300]))]
    options += r.choice([[], [], ['--count'], ['--show', 'last'], ['--show', 'ansi']])
    keys = b'{ALT A}' + waits.keys + r.choice([b'', b'~', b'{ALT B}~', b'{BREAK}', b'7~'])
    return Host(options, keys, False, {}, some_readings(r), {'SHEET.WK1': plain(file_of(sheet))}, None)


def spelled(host):
    """A random run as a line spells it."""
    clock = ','.join('none' if reading is None else reading.isoformat() for reading in host.clock)
    files = (f'{name}={entry.data.hex()}' for name, entry in host.folder.items())
    return '\t'.join([shlex.join(host.options), ascii(host.keys)[2:-1], 'clock=' + clock, *files])


# ---------------------------------------------------------------- the oracle's side

class HostShelf:
    """A folder as a shelf. A call fails where its name leads to no plain file, and a change where nobody may write the
    file; a file is written beside, under a name that nothing in the folder has."""

    def __init__(self, folder):
        self.folder = dict(folder)

    def _look(self, name):
        """What stands under a name."""
        entry = self.folder.get(name)
        if entry and entry.other:
            raise Failed()
        return entry

    def _look_to_change(self, name):
        """The same, where it may be written."""
        entry = self._look(name)
        if entry and not entry.rights & WRITABLE:
            raise Failed()
        return entry

    def has(self, name):
        """Whether there is a file."""
        return self._look(name) is not None

    def get(self, name):
        """A file's bytes, or None."""
        entry = self._look(name)
        return entry and entry.data[:MOST_BYTES]

    def put(self, name, data):
        """Writes a file, which keeps its rights."""
        entry = self._look_to_change(name)
        self.folder[name] = plain(data, entry.rights if entry else NEW_RIGHTS)

    def remove(self, name):
        """Removes a file; whether there was one."""
        there = self._look_to_change(name) is not None
        self.folder.pop(name, None)
        return there


class HostKeys(ListKeys):
    """The keys of a run, which change what stands in the folder when they come so far, and keep how many screens there
    were then."""

    def __init__(self, host, shelf, display):
        super().__init__(host.keys, [len(host.keys) + 1] if host.keys_fail else ())
        self.later, self.shelf, self.display, self.screens = host.later, shelf, display, 0

    def next(self):
        """The next byte; what stands in the folder changes before it."""
        if self.later and self.at == self.later[0]:
            self.screens = len(self.display.frames)
            self.shelf.folder[self.later[1]] = self.later[2]
        return super().next()


def moment_at(reading):
    """The moment of a reading, without a day where the calendar hasn't it. A clock that is set before 1970 can't be
    read."""
    if reading is None or reading < EPOCH:
        return Moment(None, 0)
    return Moment(day_of(reading.year, reading.month, reading.day), reading.hour * 3600 + reading.minute * 60
                  + reading.second)


def expected(host):
    """What must come of a run, and how many screens there are where the folder changes."""
    display = HostDisplay(kind_of(host.options), Writer(host.room.get('screens')))
    shelf, notes = HostShelf(host.folder), Writer(host.room.get('notes'))
    keys = HostKeys(host, shelf, display)
    clock = ListClock([moment_at(reading) for reading in host.clock])
    status = top_call(to_words(host.options), keys, shelf, clock, [display], [], notes).status
    return Outcome(status, display.writer.bytes, notes.bytes, shelf.folder), keys.screens


# ---------------------------------------------------------------- the program's side

def make_entry(path, entry):
    """Makes what stands under a name."""
    if entry.other == 'folder':
        os.mkdir(path)
    elif entry.other:
        os.symlink(entry.other.removeprefix('link '), path)
    else:
        with open(path, 'wb') as file:
            file.write(entry.data.rstrip(b'\0'))
            file.truncate(entry.size)
        os.chmod(path, entry.rights)


def entry_at(path):
    """What stands under a name."""
    if os.path.islink(path):
        return Entry(b'', other='link ' + os.readlink(path))
    if os.path.isdir(path):
        return Entry(b'', other='folder')
    with open(path, 'rb') as file:
        state = os.fstat(file.fileno())
        return Entry(file.read(MOST_BYTES), state.st_size, state.st_mode & 0o777)


def take_away(path):
    """Takes away what stands under a name."""
    if os.path.isdir(path) and not os.path.islink(path):
        os.rmdir(path)
    elif os.path.lexists(path):
        os.remove(path)


def set_bounds():
    """Bounds what the program may write and keep."""
    resource.setrlimit(resource.RLIMIT_FSIZE, (END, END))
    resource.setrlimit(resource.RLIMIT_AS, (END, END))


def sink(room):
    """A file that has room for so many bytes, and where it begins."""
    file, begin = tempfile.TemporaryFile(), 0 if room is None else END - room
    file.seek(begin)
    return file, begin


def written(file, begin):
    """What was written to a sink."""
    file.seek(begin)
    return file.read()


def wait_for(screens, file, running):
    """Waits until so many pages are written, or the program has ended."""
    end = time.monotonic() + PATIENCE
    while os.fstat(file.fileno()).st_size < screens * PAGE_BYTES and running.poll() is None and time.monotonic() < end:
        time.sleep(0.001)


def seconds_at(reading):
    """A reading as scripts/clock.c takes it."""
    return 'none' if reading is None else str((reading - EPOCH) // datetime.timedelta(seconds=1))


def start(program, clock, host, folder, source, shown, noted):
    """Starts the program."""
    around = {'LD_PRELOAD': clock, 'CLOCK': ','.join(seconds_at(reading) for reading in host.clock)}
    if host.keys_fail:
        around['KEYS_FAIL'] = 'yes'
    return subprocess.Popen([program, *host.options], stdin=source, stdout=shown, stderr=noted, cwd=folder, env=around,
                            umask=0o022, restore_signals=False, preexec_fn=set_bounds)


def change(folder, name, entry):
    """Puts something else under a name."""
    take_away(os.path.join(folder, name))
    make_entry(os.path.join(folder, name), entry)


def got(program, clock, host, screens):
    """What the program made of a run, in a folder of its own; so many screens are there when the folder changes."""
    (shown, shown_from), (noted, noted_from) = sink(host.room.get('screens')), sink(host.room.get('notes'))
    source, keys = os.pipe()
    count, *changed = host.later or (len(host.keys),)
    with tempfile.TemporaryDirectory() as folder, shown, noted, open(source,
                                                                     'rb') as source, open(keys, 'wb', 0) as keys:
        for name, entry in host.folder.items():
            make_entry(os.path.join(folder, name), entry)
        keys.write(host.keys[:count])
        running = start(program, clock, host, folder, source, shown, noted)
        if changed:
            wait_for(screens, shown, running)
            change(folder, *changed)
            keys.write(host.keys[count:])
        keys.close()
        status = running.wait(PATIENCE)
        left = {entry.name: entry_at(entry.path) for entry in os.scandir(folder)}
        return Outcome(status, written(shown, shown_from), written(noted, noted_from), left)


# ---------------------------------------------------------------- all lines

def told(entry):
    """What stands under a name, in a few words."""
    if entry is None:
        return 'nothing'
    return entry.other or f'{entry.size} bytes of rights {entry.rights:o} that begin with {entry.data[:200].hex()}'


def difference(wanted, found):
    """What differs of a run, or none."""
    if (wanted.status, wanted.notes) != (found.status, found.notes):
        return (f'the status is {found.status} and the notes {found.notes!r}, '
                f'and {wanted.status} and {wanted.notes!r} are wanted')
    if wanted.screens != found.screens:
        at = len(os.path.commonprefix([wanted.screens, found.screens]))
        part = lambda screens: f'{len(screens)} bytes, with {screens[at:at + 60]!r} from byte {at} on'
        return f'the screens are {part(found.screens)}, and {part(wanted.screens)} are wanted'
    for name in sorted({*wanted.folder, *found.folder}):
        here, there = wanted.folder.get(name), found.folder.get(name)
        if here != there:
            return f'{name} is {told(there)}, and {told(here)} is wanted'
    return None


def compared(program, clock, line):
    """Why a line's run differs, or none."""
    host = read_host(line)
    wanted, screens = expected(host)
    why = difference(wanted, got(program, clock, host, screens))
    return why and f'host: {line.decode()}: {why}'


def main(words):
    """Runs the lines and tells what differs."""
    asked = parser('host')
    asked.add_argument('--clock', type=os.path.abspath, required=True)
    asked = asked.parse_args(words)
    prepare()
    first = worked('host').splitlines()
    lines = first + [spelled(some_host(random.Random(f'{asked.seed} host {number}'))).encode()
                     for number in range(asked.count)]
    with processes(asked.processes) as pool:
        found = list(pool.map(functools.partial(compared, asked.program, asked.clock), lines, chunksize=5))
    return ended([why for why in found if why],
                 f'host: {len(first)} worked runs and {asked.count} of seed {asked.seed}')


if __name__ == '__main__':
    sys.exit(main(sys.argv[1:]))
