"""Calls of a channel over a shelf in memory: the data of this part of check_calls, and what it must answer. Its
own text tells the lines."""
from ..model.channel import Channel
from ..model.outside import Failed, MapShelf, file_name
from .cases import worked

NAMES = [b'LOG', b'A', b'b_2', b'X-1', b'log', b'Log.txt']
MOST_READ = 240


# ---------------------------------------------------------------- what the program must answer

def bytes_of(word):
    """The bytes that a word spells."""
    return bytes.fromhex(word.decode())


class Desk:
    """A shelf, of which the calls with these numbers fail, and a channel over it."""

    def __init__(self, failing):
        self.shelf, self.channel = MapShelf({}, failing), Channel()

    def put(self, name, held):
        """Puts a text file on the shelf."""
        self.shelf.files[file_name(name, 'TXT')] = held
        return True

    def call(self, line):
        """What a line's call answers."""
        head, _, rest = line.partition(b' ')
        words, channel = rest.split(b' '), self.channel
        if head == b'n':
            self.__init__([int(word or 0) for word in words])
            return True
        return {b'p': lambda: self.put(words[0], bytes_of(words[1])),
                b'd': lambda: self.put(words[0], b'x' * 2 ** int(words[1]) + bytes_of(words[2])),
                b'a': lambda: channel.attach(file_name(words[0], 'TXT'), words[1].decode(), self.shelf),
                b'f': lambda: channel.finish(self.shelf), b'r': lambda: channel.read(min(int(rest), MOST_READ)),
                b'l': channel.read_line,
                b'w': lambda: channel.write(bytes_of(rest)), b's': channel.size, b'c': channel.position,
                b't': lambda: channel.set_position(int(rest)),
                b'g': lambda: self.shelf.get(file_name(words[0], 'TXT'))}[head]()


def told(answer):
    """An answer as it is printed."""
    if answer is None or isinstance(answer, bool):
        return {True: b'yes', False: b'no', None: b'none'}[answer]
    return b'%d' % answer if isinstance(answer, int) else b'=' + bytes(answer).hex().encode()


def answers(lines):
    """The answers of calls of a channel and of the shelf below it."""
    desk = Desk([])
    for line in lines:
        try:
            yield told(desk.call(line)) + b'\n'
        except Failed:
            yield b'failed\n'


# ---------------------------------------------------------------- the calls

class Calls:
    """Random calls. It follows them, so that most of them find a channel that they can use."""

    def __init__(self, r):
        self.r = r
        self.desk = Desk([])

    def text(self):
        """Bytes with ends of lines of both kinds, one below 32, and seldom a line that is longer than is read at
        once."""
        r = self.r
        part = lambda: r.choice([b'', b'ab', b'A\tB', b'\r', b'\n', b'\r\n', b'\n', b'\r\r\n-',
                                 b'x' * r.choice([5, 239, 240, 241, 480]), bytes([r.randrange(256)])])
        return b''.join(part() for _ in range(r.choice([0, 1, 2, 3, 5]))).hex().encode()

    def name(self):
        """Any name of a file."""
        return self.r.choice(NAMES)

    def attaching(self):
        """A line that attaches a file."""
        return b'a ' + self.name() + b' ' + self.r.choice([b'R', b'R', b'W', b'M', b'M'])

    def placing(self):
        """A place in what is attached, at its end, or past it."""
        size = self.desk.channel.size() or 0
        return b't %d' % self.r.choice([0, 1, size, max(0, size - 1), size + 1, self.r.randrange(size + 2), 4294967295])

    def call(self):
        """A call: what is attached mostly chooses its kind."""
        r, access = self.r, self.desk.channel.access
        reading = [lambda: b'l', lambda: b'l', lambda: b'r %d' % r.choice([0, 1, 2, 5, 40, 239, 240])]
        writing = [lambda: b'w ' + self.text()] * 2
        telling = [lambda: b's', lambda: b'c', self.placing, self.placing]
        other = [self.attaching, lambda: b'f', lambda: b'g ' + self.name(), lambda: b'p ' + self.name() + b' '
                 + self.text()]
        of_access = {None: [self.attaching] * 3, 'R': reading * 4, 'W': writing * 3,
                     'M': (reading + writing) * 2}[access]
        return r.choice(of_access + telling + other + (reading + writing if r.randrange(6) == 0 else []))()

    def calls(self, count):
        """So many calls; a new shelf now and then, on which some calls fail."""
        out = []
        while len(out) < count:
            if not out or self.r.randrange(50) == 0:
                failing = sorted(self.r.sample(range(1, 12), self.r.choice([0, 0, 1, 2])))
                line = b'n ' + b' '.join(b'%d' % number for number in failing)
            else:
                line = self.call()
            out.append(line)
            try:
                self.desk.call(line)
            except Failed:
                pass
        return out


def data(r):
    """3,000 calls: the worked ones, and random ones."""
    first = worked('channel')
    return first + b''.join(line + b'\n' for line in Calls(r).calls(3000 - first.count(b'\n')))
