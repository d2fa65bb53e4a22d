"""What each line of a laid-out key list showed, as `scripts/trace` tells it.

The list runs in a copy of the folder's worksheets, reports and texts, so that nothing here changes. A step is a key or
a unit of a macro. As long as no macro is at work the steps of a line are its keys; else the list is run anew up to the
line's end, and its screens are counted.
"""
import itertools
import os
import re
import shutil
import subprocess
import sys
import tempfile
from typing import NamedTuple

from laid_out import read_list
from pages import PAGE_BYTES, TOP, Page, program

sys.path.append(TOP)
from oracle.model.keys import KeyReader

USE = "trace: scripts/trace FILE [words], or scripts/trace FILE --byte N"
MOST_SHOWN = 60


def copy_files(folder):
    """Copies to a folder what the program could see of this one."""
    for entry in os.scandir("."):
        if not entry.name.endswith((".WK1", ".PRN", ".TXT")):
            continue
        target = os.path.join(folder, entry.name)
        if entry.is_dir(follow_symlinks=False):
            os.mkdir(target)
        elif entry.is_symlink() or entry.is_file():
            shutil.copy2(entry.path, target, follow_symlinks=False)


def run(words, keys, take):
    """Hands the bytes of each page of a run in a folder of its own to `take`: its notes and its status."""
    with tempfile.TemporaryDirectory() as folder, tempfile.TemporaryFile() as typed, tempfile.TemporaryFile() as notes:
        copy_files(folder)
        typed.write(keys)
        typed.seek(0)
        command = [program(), *words, "--show", "pages"]
        with subprocess.Popen(command, stdin=typed, stdout=subprocess.PIPE, stderr=notes, cwd=folder) as running:
            while len(page := running.stdout.read(PAGE_BYTES)) == PAGE_BYTES:
                take(page)
        notes.seek(0)
        return notes.read().decode("latin-1").splitlines(), running.returncode


class Shown(NamedTuple):
    """What is kept of a step's page; a run may have millions."""
    mode: str
    cell: str
    line: str
    is_running: bool


def kept_pages(words, keys):
    """What a run showed, its notes and its status; texts that are the same are kept once."""
    found, texts = [], {}

    def take(data):
        page = Page(data)
        told = (texts.setdefault(text, text) for text in (page.mode, page.cell, page.line))
        found.append(Shown(*told, page.is_running))

    return found, *run(words, keys, take)


def count_pages(words, keys):
    """How many steps a run has."""
    found = itertools.count()
    run(words, keys, lambda _: next(found))
    return next(found)


def presses(keys):
    """How many keys these bytes are, each repeat counted, up to a bad word."""
    reader, count = KeyReader(), 0
    for byte in keys:
        fed = reader.feed(byte)
        if fed[0] == "bad":
            break
        if fed[0] == "key":
            count += fed[2]
    return count


def is_turn(earlier, page):
    """Whether a step comes to ERROR, or takes a typed line as it is to EDIT: by that key, or since it was refused."""
    if page.mode == "ERROR":
        return earlier.mode != "ERROR"
    is_same = earlier.mode == "POINT" and earlier.line == page.line
    return page.mode == "EDIT" and (earlier.mode in ("LABEL", "VALUE") or is_same)


class Trace:
    """A key list's run: its pages, and which of them belong to each line."""

    def __init__(self, found, words):
        """Runs the list with these words."""
        self.found, self.words = found, words
        self.pages, self.notes, self.status = kept_pages(words, found.keys())

    def last_step(self, count, before):
        """The step with which the first lines, so many as `count` says, end; `before` is that of one line less."""
        after = min(before + presses(self.found.lines[count - 1].keys), len(self.pages))
        if not any(page.is_running for page in self.pages[max(before - 1, 0):after]):
            return after
        return count_pages(self.words, self.found.keys(count))

    def told_steps(self, before, after):
        """The steps of a line that are told: those that come to ERROR or take a typed line to EDIT, and the last."""
        for step in range(before + 1, after + 1):
            if step == after or step > 1 and is_turn(self.pages[step - 2], self.pages[step - 1]):
                yield step

    def lines(self):
        """The lines of the report."""
        before = 0
        for count, line in enumerate(self.found.lines, 1):
            after = self.last_step(count, before)
            steps = f"steps {before + 1} to {after}" if after > before else "no step"
            keys = line.keys[:-1].decode("latin-1")
            yield f"line {line.number}, {steps}: {keys if len(keys) <= MOST_SHOWN else keys[:MOST_SHOWN] + ' ..'}"
            for step in self.told_steps(before, after):
                page = self.pages[step - 1]
                shown = f"  step {step}  {page.mode}{' CMD' if page.is_running else ''}  {page.cell}"
                yield f"{shown}  | {page.line}" if page.line else shown
            before = after
        for note in self.notes:
            yield note + self.place_of(note)
        yield f"status {self.status}"

    def place_of(self, note):
        """The place that a note tells by a byte: a bad word's first byte, or the last byte that a step took."""
        told = re.search(r"(step \d+ )?at byte (\d+)", note)
        if not told:
            return ""
        place = self.found.place(int(told.group(2)) - (1 if told.group(1) else 0))
        return " (line %d, column %d)" % place if place else " (behind the last line)"


def tell_byte(found, count):
    """Where so many bytes of the keys end, and where the next one stands."""
    last, following = found.place(count - 1) if count else None, found.place(count)
    if count and not last:
        sys.exit(f"trace: the keys are {len(found.keys())} bytes")
    ends = "%d bytes end at line %d, column %d" % (count, *last) if last else "0 bytes"
    print(ends + ("; the next is line %d, column %d" % following if following else "; these are all"))


def main(words):
    """Tells the trace of a list, or the place of a byte; the status is the run's."""
    if not words or any(word.partition("=")[0] == "--show" for word in words[1:]):
        sys.exit(USE)
    try:
        found = read_list(words[0])
        if words[1:2] == ["--byte"]:
            if len(words) != 3 or not words[2].isdecimal():
                sys.exit(USE)
            tell_byte(found, int(words[2]))
            return 0
        trace = Trace(found, words[1:])
        for line in trace.lines():
            print(line)
        sys.stdout.flush()
    except BrokenPipeError:                                    # who reads has seen enough
        os.dup2(os.open(os.devnull, os.O_WRONLY), sys.stdout.fileno())
        return 1
    except OSError as fault:
        sys.exit(f"trace: {fault.filename}: {fault.strerror}")
    return trace.status


if __name__ == "__main__":
    sys.exit(main(sys.argv[1:]))
