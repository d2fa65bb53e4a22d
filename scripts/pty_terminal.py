"""A terminal in memory for tests: a pseudo-terminal, and the screen that what is written to it makes."""
import fcntl
import os
import pty
import re
import select
import struct
import subprocess
import termios
import time

PART = re.compile(rb"\x1b\[(\?)?([0-9;]*)([A-Za-z])|([\x20-\x7e]+)|(.)", re.DOTALL)
BEGUN = re.compile(rb"\x1b(\[[?0-9;]*)?$")
LONGEST_WAIT, LOOK = 15.0, 0.02


class Screen:
    """Lines of bytes, and where the cursor stands, both from 0."""

    def __init__(self, lines, columns):
        """An empty screen."""
        self.lines, self.columns, self.begun = lines, columns, b""
        self.is_other, self.bells = False, 0
        self.clear()

    def clear(self):
        """Empties it, with the cursor at its first place."""
        self.grid = [" " * self.columns] * self.lines
        self.place = 0, 0

    def write(self, data):
        """Takes what a program writes; a sequence that has only begun waits for the rest."""
        data = self.begun + data
        begun = BEGUN.search(data)
        self.begun = begun.group() if begun else b""
        data = data[:len(data) - len(self.begun)]
        for private, numbers, command, text, other in PART.findall(data):
            if text:
                self.put(text.decode())
            elif command == b"H":
                row, _, column = numbers.partition(b";")
                self.place = int(row or 1) - 1, int(column or 1) - 1
            elif command == b"J":
                self.clear()
            elif private and numbers == b"1049":
                self.is_other = command == b"h"
            elif other == b"\a":
                self.bells += 1

    def put(self, text):
        """Shows text at the cursor, in its line."""
        row, column = self.place
        self.grid[row] = (self.grid[row][:column] + text + self.grid[row][column + len(text):])[:self.columns]
        self.place = row, min(column + len(text), self.columns - 1)


class Seat:
    """A command at a pseudo-terminal."""

    def __init__(self, command, lines=25, columns=80, folder=None, environment=None):
        """Starts it; its standard error is kept apart."""
        self.master, self.slave = pty.openpty()
        self.resize(lines, columns)
        self.before = termios.tcgetattr(self.slave)
        self.process = subprocess.Popen(command, stdin=self.slave, stdout=self.slave, stderr=subprocess.PIPE,
                                        cwd=folder, env={**os.environ, **(environment or {})}, start_new_session=True)

    def resize(self, lines, columns):
        """Gives the terminal another size."""
        self.screen = Screen(lines, columns)
        fcntl.ioctl(self.master, termios.TIOCSWINSZ, struct.pack("4H", lines, columns, 0, 0))

    def type(self, data):
        """Types bytes."""
        os.write(self.master, data)

    def take(self):
        """Takes what is written, until nothing comes for a moment."""
        while select.select([self.master], [], [], LOOK)[0]:
            self.screen.write(os.read(self.master, 1 << 16))

    def until(self, is_so):
        """Takes what is written until something is so, or for the longest wait."""
        last = time.monotonic() + LONGEST_WAIT
        while not is_so() and time.monotonic() < last:
            self.take()

    def end(self):
        """Waits for the command's end: its status, its notes, and whether the terminal is as it was."""
        self.until(lambda: self.process.poll() is not None)
        self.take()
        is_clean = termios.tcgetattr(self.slave) == self.before and not self.screen.is_other
        notes = self.process.stderr.read().decode() if self.process.poll() is not None else "it has not ended"
        return self.process.poll(), notes, is_clean
