"""Laid-out key lists, as `scripts/keys` reads them:

- A line whose first byte that is no blank is `#` is a comment, and is left out. Blanks are spaces and tabs.
- Of any other line the blanks at both ends are left out, and CR at its end; an empty one is left out.
- What is left is key notation, in which `{#}` is the byte `#` and `{ }` a space: so a line begins with `#`, and begins
  or ends with a space, where that is wanted. Within a line `#` and spaces stand for themselves.
- Each line that is left ends with LF, which key notation passes over between words; a word doesn't go on in the next
  line.
"""
import re
import signal
import sys

BLANKS = b" \t"
PART = re.compile(rb"\{([# ])\}|(.)", re.DOTALL)


class LaidLine:
    """A line's number in its file, from 1; its keys with the LF behind them; and the column of each byte, from 1."""

    def __init__(self, number, line):
        """Takes a line without its LF that is no comment."""
        self.number = number
        whole = line.rstrip(b"\r").rstrip(BLANKS)
        begin = len(whole) - len(whole.lstrip(BLANKS))
        parts = list(PART.finditer(whole, begin))
        self.keys = b"".join(part.group(1) or part.group(2) for part in parts) + b"\n"
        self.columns = [part.start() + 1 for part in parts] + [len(whole) + 1]


class KeyList:
    """The lines of a key list that hold keys."""

    def __init__(self, data):
        """Takes the bytes of a file."""
        self.lines = []
        for number, line in enumerate(data.split(b"\n"), 1):
            bare = line.strip(BLANKS + b"\r")
            if bare and not bare.startswith(b"#"):
                self.lines.append(LaidLine(number, line))

    def keys(self, count=None):
        """The keys of the first lines, so many as `count` says, or of all."""
        return b"".join(line.keys for line in self.lines[:count])

    def place(self, offset):
        """The line and column of the byte before which `offset` bytes of the keys stand; None behind the last one."""
        for line in self.lines:
            if offset < len(line.keys):
                return line.number, line.columns[offset]
            offset -= len(line.keys)
        return None


def read_list(path):
    """The key list of a file; `-` is standard input."""
    if path == "-":
        return KeyList(sys.stdin.buffer.read())
    with open(path, "rb") as file:
        return KeyList(file.read())


def main(words):
    """Writes the keys of one file."""
    if len(words) != 1:
        sys.exit("keys: scripts/keys FILE; - is standard input")
    signal.signal(signal.SIGPIPE, signal.SIG_DFL)              # a program that has ended takes no more
    try:
        found = read_list(words[0])
    except OSError as fault:
        sys.exit(f"keys: {words[0]}: {fault.strerror}")
    sys.stdout.buffer.write(found.keys())


if __name__ == "__main__":
    main(sys.argv[1:])
