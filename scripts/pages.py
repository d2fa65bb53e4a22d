"""The program's screens as `--show pages` writes them, and what can be told from one."""
import os

LINES, COLUMNS = 25, 80
PAGE_BYTES = LINES * (COLUMNS + 1) + len("----\n")
TOP = os.path.dirname(os.path.dirname(os.path.realpath(__file__)))


def program():
    """The path of the program: what PROGRAM says, or the launcher of this repository."""
    return os.path.realpath(os.environ.get("PROGRAM") or os.path.join(TOP, "1-2-3"))


class Page:
    """One screen of 25 lines of 80 bytes."""

    def __init__(self, data):
        """Takes the bytes of one page."""
        self.lines = data.decode("latin-1").split("\n")[:LINES]

    @property
    def mode(self):
        """The mode, or the text that a macro put in its place."""
        return self.lines[0][72:].strip()

    @property
    def pointer(self):
        """The address of the pointer's cell, as B12."""
        return self.lines[0].partition(":")[0]

    @property
    def cell(self):
        """What the first line tells of the pointer's cell, its address in front."""
        return self.lines[0][:72].rstrip()

    @property
    def line(self):
        """The line that is typed or the menu's items; the message in ERROR."""
        return self.lines[24][:50].rstrip() if self.mode == "ERROR" else self.lines[1].rstrip()

    @property
    def is_running(self):
        """Whether a macro is at work."""
        return self.lines[24][67:70] == "CMD"
