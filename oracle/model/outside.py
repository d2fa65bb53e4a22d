"""The outside in memory: keys, shelf, clock, notes, displays that can fail."""
import re
from .keys import fold


class Failed(Exception):
    """A call on the outside failed."""

    pass


def file_name(data, ext='WK1'):
    """FileName::with: 1 to 8 bytes of A to Z, 0 to 9, `_` and `-`, folded, with the extension; else None."""
    up = fold(bytes(data))
    m = re.fullmatch(rb'([A-Z0-9_-]{1,8})(\.' + ext.encode() + rb')?', up)
    if not m:
        return None
    return m.group(1).decode() + '.' + ext


class ListKeys:
    """Bytes of keys, one behind another; the calls with the given numbers fail."""

    def __init__(self, data, failing=()):
        self.data = bytes(data)
        self.at = 0
        self.failing = set(failing)
        self.calls = 0
        self.faults = 0

    def next(self):
        """The next byte, or None at the end."""
        self.calls += 1
        if self.calls in self.failing:
            self.faults += 1
            raise Failed()
        if self.at >= len(self.data):
            return None
        self.at += 1
        return self.data[self.at - 1]


class MapShelf:
    """A name may hold None: what stands there is no file, and each call with the name fails."""

    def __init__(self, files=None, failing=()):
        self.files = dict(files or {})
        self.failing = set(failing)
        self.calls = 0
        self.faults = 0
        self.log = []

    def _call(self, what, name):
        """Counts a call and keeps what it was; some fail."""
        self.calls += 1
        if self.calls in self.failing or self.files.get(name, b'') is None:
            self.faults += 1
            self.log.append((what, name, 'failed', self.files.get(name)))
            raise Failed()
        self.log.append((what, name, 'done'))

    def has(self, name):
        """Whether there is a file."""
        self._call('has', name)
        return name in self.files

    def get(self, name):
        """A file's bytes, or None."""
        self._call('get', name)
        return self.files.get(name)

    def put(self, name, data):
        """Writes a file."""
        self._call('put', name)
        self.files[name] = bytes(data)

    def remove(self, name):
        """Removes a file; whether there was one."""
        self._call('remove', name)
        return self.files.pop(name, None) is not None


class ListClock:
    """Repeats the last moment."""

    def __init__(self, readings):
        assert readings
        self.readings = list(readings)
        self.taken = 0

    def read(self):
        """The next moment."""
        m = self.readings[min(self.taken, len(self.readings) - 1)]
        self.taken += 1
        return m


class ListNotes:
    """A write past the room, where that is stated, fails."""

    def __init__(self, failing=(), room=None):
        self.bytes = b''
        self.room = room
        self.failing = set(failing)
        self.calls = 0
        self.faults = 0

    def write(self, data):
        """Takes a note."""
        self.calls += 1
        if self.calls in self.failing or self.room is not None and len(self.bytes) + len(data) > self.room:
            self.faults += 1
            raise Failed()
        self.bytes += data


class Recorder:
    """A frame past the room, where that is stated, fails."""

    def __init__(self, kind='pages', failing=(), room=None):
        self.kind = kind
        self.room = room
        self.failing = set(failing)
        self.calls = 0
        self.faults = 0
        self.grid = [bytearray(80) for _ in range(25)]
        self.frames = []
        self.puts = 0
        self.bytes_put = 0
        self.per_frame = []          # (puts, bytes) at each finished frame, cumulative
        self.closed = False

    def _call(self):
        """Counts a call; some fail."""
        self.calls += 1
        if self.calls in self.failing:
            self.faults += 1
            raise Failed()

    def put(self, row, col, data):
        """Takes a run of bytes of a line."""
        self._call()
        self.closed = False
        self.grid[row][col:col + len(data)] = data
        self.puts += 1
        self.bytes_put += len(data)

    def done(self):
        """A screen is whole."""
        self._call()
        if self.room is not None and len(self.frames) >= self.room:
            self.faults += 1
            raise Failed()
        self.closed = False
        self.frames.append([bytes(line) for line in self.grid])
        self.per_frame.append((self.puts, self.bytes_put))

    def close(self):
        """No more screens come."""
        self._call()
        self.closed = True


def page(frame):
    """A screen as a page: its lines, and a line of dashes."""
    return b''.join(line + b'\n' for line in frame) + b'----\n'


class Writer:
    """Takes bytes as long as there is room for them."""

    def __init__(self, room=None):
        self.room = room
        self.bytes = b''

    def write(self, data):
        """Takes what there is room for, and fails where that isn't all."""
        left = len(data) if self.room is None else self.room - len(self.bytes)
        self.bytes += data[:left]
        if left < len(data):
            raise Failed()


class HostDisplay(Recorder):
    """A display that writes: pages at each frame or the last one when it is closed, or for each run that is put ESC [
    line ; column H, both from 1, and the bytes."""

    def __init__(self, kind, writer):
        super().__init__(kind)
        self.writer = writer

    def put(self, row, col, data):
        """Writes the run, for a terminal."""
        super().put(row, col, data)
        if self.kind == 'ansi':
            self.writer.write(b'\x1b[%d;%dH' % (row + 1, col + 1) + data)

    def done(self):
        """Writes the page."""
        super().done()
        if self.kind == 'pages':
            self.writer.write(page(self.frames[-1]))

    def close(self):
        """Writes the last page, where it alone is shown."""
        super().close()
        if self.kind == 'last' and self.frames:
            self.writer.write(page(self.frames[-1]))


def send(before, after, display):
    """The changed runs of each line, and then done.  A run is a longest stretch of differing bytes."""
    for row in range(25):
        a, b = before[row], after[row]
        if a == b:
            continue
        col = 0
        while col < 80:
            if a[col] == b[col]:
                col += 1
                continue
            end = col
            while end < 80 and a[end] != b[end]:
                end += 1
            display.put(row, col, bytes(b[col:end]))
            col = end
    display.done()


EMPTY_GRID = [bytes(80) for _ in range(25)]
