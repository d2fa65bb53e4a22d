"""The text file that macros read and write: its content, its place and how it is open."""
from .outside import Failed

LIMIT = 67108864


def clean(data):
    """In read and read_line a byte below 32 becomes a blank."""
    return bytes(32 if b < 32 else b for b in data)


class Channel:
    """The one text file that is open, or none."""

    def __init__(self):
        self.name = None
        self.access = None
        self.data = bytearray()
        self.pos = 0

    def _drop(self):
        """Nothing is open."""
        self.name, self.access, self.data, self.pos = None, None, bytearray(), 0

    def attach(self, name, access, shelf):
        """access 'R','W','M'.  Failed is raised: after a failed finishing the earlier channel stays attached."""
        self.finish(shelf)                   # first finishes what is there
        if access == 'W':                    # Write takes the empty list
            self.name, self.access, self.data, self.pos = name, access, bytearray(), 0
            return True
        got = shelf.get(name)                # Failed here: nothing is attached
        if got is None or len(got) > LIMIT:
            return False
        self.name, self.access, self.data, self.pos = name, access, bytearray(got), 0
        return True

    def finish(self, shelf):
        """Writes what was changed and lets the file go; false where none is open."""
        if self.name is None:
            return False
        if self.access in ('W', 'M'):
            shelf.put(self.name, bytes(self.data))
        self._drop()
        return True

    def _unreadable(self):
        """Whether nothing can be read at the place."""
        return self.name is None or self.access == 'W' or self.pos >= len(self.data)

    def read(self, count):
        """So many bytes, or as many as there are; None where nothing can be read."""
        if self._unreadable():
            return None
        out = self.data[self.pos:self.pos + count]
        self.pos += len(out)
        return clean(out)

    def read_line(self):
        """The line at the place without its end, of which 240 bytes at most are taken; None where nothing can be
        read."""
        if self._unreadable():
            return None
        lf = self.data.find(b'\n', self.pos)
        end = len(self.data) if lf < 0 else lf
        after = len(self.data) if lf < 0 else lf + 1
        if lf > self.pos and self.data[lf - 1] == 13:       # CR LF
            end = lf - 1
        line = self.data[self.pos:end]
        if len(line) > 240:
            self.pos += 240
            return clean(line[:240])
        self.pos = after
        return clean(line)

    def write(self, data):
        """Puts bytes over what stands at the place; false where it can't be written, or would be too large."""
        if self.name is None or self.access == 'R':
            return False
        if max(len(self.data), self.pos + len(data)) > LIMIT:
            return False
        self.data[self.pos:self.pos + len(data)] = data
        self.pos += len(data)
        return True

    def size(self):
        """The size, or None."""
        return None if self.name is None else len(self.data)

    def position(self):
        """The place, or None."""
        return None if self.name is None else self.pos

    def set_position(self, at):
        """Goes to a place of the file, or to its end; false past that."""
        if self.name is None or at > len(self.data):
            return False
        self.pos = at
        return True
