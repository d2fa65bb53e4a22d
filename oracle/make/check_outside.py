"""Calls of keys, notes and a display in memory: the data of this part of check_calls, and what it must answer. Its own
text tells the lines."""
from ..model.outside import Failed, ListKeys, ListNotes, Recorder
from .cases import worked


# ---------------------------------------------------------------- what the program must answer

class Desk:
    """Keys, notes and a display, of which the calls with their numbers fail, and those for which there is no room."""

    def __init__(self):
        self.keys, self.notes, self.display = ListKeys(b''), ListNotes(room=0), Recorder(room=0)

    def make(self, head, first, *failing):
        """New keys of these bytes, or new notes or a new display with room for so many."""
        failing = [int(number or 0) for number in failing]
        if head == b'keys':
            self.keys = ListKeys(bytes.fromhex(first.decode()), failing)
        elif head == b'notes':
            self.notes = ListNotes(failing, int(first))
        else:
            self.display = Recorder('pages', failing, int(first))
        return b''

    def call(self, head, *words):
        """What a call answers."""
        if head == b'key':
            key = self.keys.next()
            return b'none\n' if key is None else b'%d\n' % key
        {b'note': lambda: self.notes.write(bytes.fromhex(words[0].decode())),
         b'put': lambda: self.display.put(0, 0, b'A'),
         b'done': self.display.done, b'close': self.display.close}[head]()
        return b'yes\n'


def answers(lines):
    """The answers of calls of the outside."""
    desk = Desk()
    for line in lines:
        words = line.split(b' ')
        if words[0] in (b'keys', b'notes', b'display'):
            yield desk.make(*words)
        else:
            try:
                yield desk.call(*words)
            except Failed:
                yield b'failed\n'


# ---------------------------------------------------------------- the calls

def numbers(r):
    """The numbers of two calls that fail, or of none."""
    return b' %d %d' % (r.choice([0, 1, 2, 3, r.randrange(1, 9)]), r.choice([0, 0, 2, 4, r.randrange(1, 9)]))


def keys(r):
    """Keys, which are asked for past their end."""
    text = bytes(r.randrange(256) for _ in range(r.randrange(5)))
    return [b'keys ' + text.hex().encode() + numbers(r)] + [b'key'] * (len(text) + 3)


def notes(r):
    """Notes, whose room comes to its end."""
    lines = [bytes(r.randrange(32, 127) for _ in range(r.choice([0, 1, 1, 2, 4]))) for _ in range(6)]
    return [b'notes %d' % r.randrange(7) + numbers(r)] + [b'note ' + line.hex().encode() for line in lines]


def displays(r):
    """A display, whose room comes to its end."""
    return [b'display %d' % r.randrange(4) + numbers(r)] + [r.choice([b'put', b'done', b'done', b'close'])
                                                            for _ in range(8)]


def data(r):
    """The worked lines, and 300 random keys, notes and displays."""
    lines = worked('outside').splitlines()
    for _ in range(100):
        lines += keys(r) + notes(r) + displays(r)
    return b''.join(line + b'\n' for line in lines)
