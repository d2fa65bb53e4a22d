"""The program in a terminal, with a person at it: `scripts/live [--record FILE] [words]`.

Raw keys become key notation, one screen comes back for each, and the terminal shows it: the arrows, HOME, END, PGUP,
PGDN, DEL, the back key, F2 to F10 (EDIT NAME ABS GOTO WINDOW QUERY TABLE CALC GRAPH), Alt with a letter, Tab and Ctrl
with an arrow (BIGRIGHT, BIGLEFT), Ctrl-C or Ctrl-\\ (BREAK). ESC is told from what a key sends behind it by a short
wait. Any other key rings. Ctrl-D ends the keys, and with them the run, as the end of a key list does; so does /QY.
FILE, which must not be there yet, gets the keys as a list that makes the same sheet again, also by scripts/keys."""
import fcntl
import os
import select
import signal
import struct
import subprocess
import sys
import tempfile
import termios
import time
import tty

from live_cursor import EDIT_LINE, Cursor, inserted_at, is_refusal
from pages import COLUMNS, LINES, PAGE_BYTES, Page, program
from terminal_keys import END_OF_KEYS, PASSED_OVER, first_key

USE = "live: scripts/live [--record FILE] [words], without --show"
ESCAPE_WAIT, LAST_WAIT = 0.05, 2.0
FIRST_KEY = b"{ESC}"           # passed over in READY: the first screen
BLANKS = (b" ", b"#")          # no line of a record begins with these
LINE_LENGTH = 100
ENTER_SCREEN, CLEAR = b"\x1b[?1049h", b"\x1b[0m\x1b[2J\x1b[H"
LEAVE_SCREEN = CLEAR + b"\x1b[?25h\x1b[?1049l"
ENDING_SIGNALS = (signal.SIGINT, signal.SIGTERM, signal.SIGHUP, signal.SIGQUIT)


class Ended(Exception):
    """A signal ends the run; its number is the argument."""


class Record:
    """A key list that is written key by key, in lines."""

    def __init__(self, path):
        """Makes the file; without a path nothing is kept."""
        self.file = open(path, "xb", buffering=0) if path else None
        self.length, self.last = 0, b""

    def key(self, word):
        """Keeps a key; a line ends behind Enter, or behind a word in braces where it grew long."""
        if not self.file:
            return
        is_end = self.last == b"~" or self.length > LINE_LENGTH and self.last.endswith(b"}")
        if is_end and word not in BLANKS:
            self.file.write(b"\n")
            self.length = 0
        self.file.write(word)
        self.length, self.last = self.length + len(word), word

    def close(self):
        """Ends the last line."""
        if self.file:
            self.file.write(b"\n")
            self.file.close()


class Terminal:
    """Standard input and output as a raw terminal with a screen of its own, from `begin` to `leave`."""

    def __init__(self):
        """Remembers how the terminal is."""
        self.before, self.shown, self.has_begun = termios.tcgetattr(0), None, False

    def begin(self):
        """Takes the terminal, and clears its screen."""
        self.has_begun = True
        tty.setraw(0)
        self.write(ENTER_SCREEN + CLEAR)

    def leave(self):
        """Gives the terminal back as it was, also where it was taken in part."""
        if not self.has_begun:
            return
        self.write(LEAVE_SCREEN)
        try:
            termios.tcsetattr(0, termios.TCSADRAIN, self.before)
        except termios.error:                                  # the terminal is gone
            pass

    def write(self, data):
        """Writes all of the bytes; a terminal that is gone takes none."""
        try:
            while data:
                data = data[os.write(1, data):]
        except OSError:
            pass

    def draw(self, page, place):
        """Shows the lines of a page that changed, and the cursor."""
        out = b""
        for at, line in enumerate(page.lines):
            if self.shown is None or self.shown.lines[at] != line:
                out += b"\x1b[%d;1H%s" % (at + 1, line.encode("latin-1"))
        self.shown = page
        self.write(out + b"\x1b[%d;%dH" % (place[0] + 1, place[1] + 1))

    def renew(self, page, place):
        """Shows a whole page on a terminal of another size, or says that this is too small."""
        self.shown = None
        self.write(CLEAR)
        if fault_of_size():
            self.write(fault_of_size().encode())
        else:
            self.draw(page, place)


def fault_of_size():
    """What is wrong with the terminal's size, or nothing."""
    lines, columns = struct.unpack("4H", fcntl.ioctl(1, termios.TIOCGWINSZ, bytes(8)))[:2]
    if lines >= LINES and columns >= COLUMNS:
        return ""
    return f"live: the terminal has {lines} lines of {columns}; {LINES} lines of {COLUMNS} are needed"


class Program:
    """The running program: keys go in, pages come out."""

    def __init__(self, words, notes):
        """Starts it; its notes go to a file."""
        self.process = subprocess.Popen([program(), *words, "--show", "pages"], stdin=subprocess.PIPE,
                                        stdout=subprocess.PIPE, stderr=notes, bufsize=0, start_new_session=True)
        self.rest, self.has_ended, self.last_moment = b"", False, None

    def send(self, keys):
        """Hands keys over, unless the program is gone."""
        try:
            self.process.stdin.write(keys)
        except (BrokenPipeError, ValueError):
            pass

    def pages(self):
        """The pages that came, at least a part of one or the end."""
        data = os.read(self.process.stdout.fileno(), 1 << 16)
        self.has_ended = not data
        self.rest += data
        whole = len(self.rest) // PAGE_BYTES * PAGE_BYTES
        found = [Page(self.rest[at:at + PAGE_BYTES]) for at in range(0, whole, PAGE_BYTES)]
        self.rest = self.rest[whole:]
        return found

    def answer(self, key):
        """The page of a key where each key makes one, or None at the end."""
        self.send(key)
        found = []
        while not found and not self.has_ended:
            found = self.pages()
        return found[-1] if found else None

    def end_keys(self):
        """Ends the keys; from then on a macro may go on for a while."""
        self.process.stdin.close()
        self.last_moment = time.monotonic() + LAST_WAIT

    def end_macro(self):
        """Ends the program where its macro went on for longer than that."""
        if self.last_moment and time.monotonic() > self.last_moment:
            self.process.terminate()

    def status(self):
        """The exit status; a signal's number above 128."""
        status = self.process.wait()
        return status if status >= 0 else 128 - status

    def end(self):
        """Ends the program where it goes on."""
        if self.process.poll() is None:
            self.process.terminate()
            self.process.wait()


class Live:
    """One run: what was typed and not yet sent, the page that is shown, and the keys whose pages have not come."""

    def __init__(self, terminal, running, record):
        """Asks for the first screen."""
        self.terminal, self.program, self.record = terminal, running, record
        self.typed, self.page, self.place, self.sent = b"", None, (0, 0), []
        self.cursor = Cursor()
        self.send(FIRST_KEY)

    def send(self, key):
        """Hands a key to the program and keeps it."""
        self.record.key(key)
        self.sent.append(key)
        self.program.send(key)

    def take_typed(self, is_all):
        """Sends each key of what was typed; the wait that has passed tells ESC."""
        while self.typed:
            if self.typed[0] == END_OF_KEYS:
                self.typed = b""
                self.program.end_keys()
                break
            word, count = first_key(self.typed, is_all)
            if count == 0:
                return
            self.typed = self.typed[count:]
            if word == PASSED_OVER:
                self.terminal.write(b"\a")
            else:
                self.send(word)

    def take_pages(self):
        """Follows the pages that came, and shows the last."""
        found = self.program.pages()
        for page in found:
            if page.is_running:
                self.sent.clear()
            key = self.sent.pop(0) if self.sent else b""
            self.place = self.cursor.place(self.page, page, key)
            if is_refusal(self.page, page, key) and not self.sent and not page.is_running:
                self.ask_for_fault(page)
            self.page = page
        if found and not fault_of_size():
            self.terminal.draw(self.page, self.place)

    def ask_for_fault(self, page):
        """Puts a byte into a refused line, which shows where the cursor stands, and takes it away again."""
        before = page.lines[EDIT_LINE]
        probe = next(byte for byte in "xyzwvu0123456789" + "".join(map(chr, range(65, 91))) + "?" if byte not in before)
        after = self.program.answer(probe.encode())
        if after and probe in after.lines[EDIT_LINE]:
            self.cursor.column = inserted_at(before, after.lines[EDIT_LINE])
            self.place = EDIT_LINE, self.cursor.column
            self.program.answer(b"{BS}")

    def read_terminal(self):
        """Takes what came from the terminal; one that is gone ends the keys."""
        try:
            self.typed += os.read(0, 1024) or bytes([END_OF_KEYS])
        except OSError:
            self.typed += bytes([END_OF_KEYS])

    def run(self):
        """Goes on until the program ends; the size may change meanwhile."""
        woken, wake = os.pipe()
        os.set_blocking(wake, False)
        signal.set_wakeup_fd(wake)
        pages = self.program.process.stdout.fileno()
        while not self.program.has_ended:
            is_last = self.program.last_moment is not None
            sources = [woken, pages] if is_last else [woken, pages, 0]
            events = select.select(sources, [], [], ESCAPE_WAIT if self.typed or is_last else None)[0]
            if woken in events:
                os.read(woken, 1024)
                if self.page:
                    self.terminal.renew(self.page, self.place)
            if 0 in events:
                self.read_terminal()
            self.take_typed(not events)
            if pages in events:
                self.take_pages()
            if self.page and self.page.is_running:
                self.program.end_macro()
        signal.set_wakeup_fd(-1)


def end_by(number, _):
    """Ends the run by a signal."""
    raise Ended(number)


def on_signals(handler):
    """What the signals do that end a run."""
    for number in ENDING_SIGNALS:
        signal.signal(number, handler)


def at_terminal(words, path):
    """Runs the program in the terminal: its notes and its status. Whatever ends it, the terminal is put in order."""
    signal.signal(signal.SIGWINCH, lambda *_: None)
    terminal, record, running = Terminal(), Record(path), None
    with tempfile.TemporaryFile() as notes:
        try:
            on_signals(end_by)
            running = Program(words, notes)
            terminal.begin()
            Live(terminal, running, record).run()
            status = running.status()
        except Ended as ended:
            status = 128 + ended.args[0]
        finally:
            on_signals(signal.SIG_IGN)
            terminal.leave()
            record.close()
            if running:
                running.end()
        notes.seek(0)
        return notes.read(), status


def main(words):
    """Reads the words and says what is wrong before the screen is taken; the status is the program's."""
    path = None
    if words[:1] == ["--record"]:
        if len(words) < 2:
            sys.exit(USE)
        path, words = words[1], words[2:]
    if any(word.partition("=")[0] in ("--show", "--record") for word in words):
        sys.exit(USE)
    if not (os.isatty(0) and os.isatty(1)):
        sys.exit("live: standard input and output must be a terminal; keys from a file go to ./1-2-3")
    if fault_of_size():
        sys.exit(fault_of_size())
    try:
        notes, status = at_terminal(words, path)
    except OSError as fault:
        sys.exit(f"live: {fault.filename or 'terminal'}: {fault.strerror}")
    sys.stderr.write(notes.decode("latin-1"))
    return status


if __name__ == "__main__":
    sys.exit(main(sys.argv[1:]))
