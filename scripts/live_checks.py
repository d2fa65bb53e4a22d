"""scripts/live at a pseudo-terminal: what is typed, what the terminal shows, and what is left."""
import os
import signal
import sys

from pages import TOP
from pty_terminal import Seat
from terminal_keys import first_key

sys.path.append(TOP)
from oracle.model.cli import run

LIVE = os.path.join(TOP, "scripts/live")
# what a terminal sends, and its keys
SENT = [
    (b"\x1b[A\x1bOB\x1b[C\x1bOD", b"{UP}{DOWN}{RIGHT}{LEFT}"),
    (b"\x1b[H\x1bOF\x1b[1~\x1b[4~\x1b[7~\x1b[8~", b"{HOME}{END}{HOME}{END}{HOME}{END}"),
    (b"\x1b[5~\x1b[6~\x1b[3~\x7f\x08", b"{PGUP}{PGDN}{DEL}{BS}{BS}"),
    (b"\x1bOQ\x1bOR\x1bOS\x1b[15~\x1b[17~", b"{EDIT}{NAME}{ABS}{GOTO}{WINDOW}"),
    (b"\x1b[18~\x1b[19~\x1b[20~\x1b[21~", b"{QUERY}{TABLE}{CALC}{GRAPH}"),
    (b"\x1b[12~\x1b[13~\x1b[14~\x1b[[B\x1b[[C\x1b[[D\x1b[[E", b"{EDIT}{NAME}{ABS}{EDIT}{NAME}{ABS}{GOTO}"),
    (b"\x1b[1;5C\x1b[1;5D\t\x1b[Z", b"{BIGRIGHT}{BIGLEFT}{BIGRIGHT}{BIGLEFT}"),
    (b"\x1ba\x1bZ\x03\x1c", b"{ALT A}{ALT Z}{BREAK}{BREAK}"),
    (b"~{}\r a#", b"{~}{{}{}}~ a#"),
    (b"\x1b", b"{ESC}"), (b"\x1b\x1b[A", b"{ESC}{UP}"), (b"\x1bO", b"{ALT O}"), (b"\x1b[", b"{ESC}["),
    (b"\x1bOP\x1b[23~\x01\xc3\xa9\x1b[99~", b""),
]


def same(found, wanted):
    """Two values are the same."""
    assert found == wanted, f"found {found!r}, wanted {wanted!r}"


def shown(keys, words=(), files=None):
    """The last screen of keys without the moment, as the oracle tells it."""
    return [line.decode() for line in run(list(words), keys, files).frames[-1][:24]]


def look(seat, keys, cursor, words=(), files=None):
    """The terminal comes to show the screen that the keys make, with the cursor at a place."""
    wanted = shown(keys, words, files), cursor
    seat.until(lambda: (seat.screen.grid[:24], seat.screen.place) == wanted)
    same((seat.screen.grid[:24], seat.screen.place), wanted)


def begun(*words, **how):
    """A seat at which the first screen has come."""
    seat = Seat([LIVE, *words], **how)
    seat.until(lambda: "READY" in seat.screen.grid[0])
    return seat


def check_raw_keys(_):
    """Each sequence is its key; what is none of 1-2-3's keys is nothing."""
    for data, wanted in SENT:
        found, rest = b"", data
        while rest:
            word, count = first_key(rest, True)
            found, rest = found + word, rest[count:]
        same((data, found), (data, wanted))
    for begin in (b"\x1b", b"\x1b[", b"\x1bO", b"\x1b[1;", b"\x1b[["):
        same((begin, first_key(begin, False)), (begin, (None, 0)))


def check_session(room):
    """Screens and cursors while a person types, and a record that makes the same sheet again."""
    seat = begun("--record", "kept", "--count", folder=room)
    same(seat.screen.is_other, True)
    keys = b"{ESC}"
    look(seat, keys, (4, 8))
    for typed, key, cursor in (
            (b"Sales ", b"Sales ", (1, 6)), (b"x\x7f", b"x{BS}", (1, 6)), (b"\x1b[B", b"{DOWN}", (5, 8)),
            (b"#NOT#1\r", b"#NOT#1~", (5, 8)), (b"\x1b[C", b"{RIGHT}", (5, 17)),
            (b"+A2*", b"+A2*", (1, 4)), (b"\x1bOA", b"{UP}", (1, 6)), (b"+12)5\r", b"+12)5~", (1, 9)),
            (b"\x1b[D", b"{LEFT}", (1, 8)), (b"\x1b[3~\x1b[3~", b"{DEL}{DEL}", (1, 8)), (b"\x1b[H", b"{HOME}", (1, 0)),
            (b"3", b"3", (1, 1)), (b"\r", b"~", (5, 17)), (b"/", b"/", (1, 0)), (b"\x1b[C", b"{RIGHT}", (1, 11)),
            (b"\x1b", b"{ESC}", (5, 17)), (b"/wcs", b"/wcs", (1, 10)), (b"12\r", b"12~", (5, 18)),
            (b"\x1b[15~", b"{GOTO}", (1, 7)), (b"j40\r", b"j40~", (23, 71)), (b" lead\r", b" lead~", (23, 71))):
        keys += key
        seat.type(typed)
        # behind a refused line the cursor is at the fault, which is the sixth byte here
        look(seat, keys, cursor)
    seat.type(b"\x01")
    seat.until(lambda: seat.screen.bells == 1)
    same(seat.screen.bells, 1)
    seat.type(b"/QY")
    status, notes, is_clean = seat.end()
    same((status, notes, is_clean), (0, "1-2-3: evaluations %d\n" % run([], keys).evaluations, True))
    kept = (room / "kept").read_bytes()
    same(kept.replace(b"\n", b""), keys + b"/QY")
    assert not any(line.startswith((b" ", b"#")) for line in kept.split(b"\n")), kept
    same(run([], kept).session.sheet.cells, run([], keys).session.sheet.cells)


def check_files(room):
    """The program's words are handed on, and Ctrl-D ends the keys."""
    files = {}
    for name in ("JUNE.WK1", "NORTH.WK1"):
        with open(os.path.join(TOP, "examples/closing.files", name), "rb") as file:
            files[name] = file.read()
        (room / name).write_bytes(files[name])
    seat = begun("--file", "JUNE", folder=room)
    look(seat, b"{ESC}", (4, 8), ["--file", "JUNE"], dict(files))
    seat.type(b"/fsJUNE\rc")
    many = b"7\r" * 400 + b"{}"
    seat.type(many + b"\r/fsMAY\r\x04")
    same(seat.end(), (0, "", True))
    many = many.replace(b"\r", b"~").replace(b"{}", b"{{}{}}")
    left = run(["--file", "JUNE"], b"/fsJUNE~c" + many + b"~/fsMAY~", dict(files)).files
    same({path.name: path.read_bytes() for path in room.iterdir()}, left)


def check_endings(room):
    """The terminal is left clean by a signal, a crash, a program that isn't there and one that never ends."""
    seat = begun(folder=room)
    seat.process.send_signal(signal.SIGTERM)
    same(seat.end(), (128 + signal.SIGTERM, "", True))
    for lines, wanted in (("kill -SEGV $$", 128 + signal.SIGSEGV), ("echo gone >&2; exit 3", 3)):
        (room / "crash").write_text(f"#!/bin/sh\n{lines}\n")
        (room / "crash").chmod(0o755)
        seat = Seat([LIVE], folder=room, environment={"PROGRAM": str(room / "crash")})
        same(seat.end(), (wanted, "gone\n" if wanted == 3 else "", True))
    seat = Seat([LIVE], folder=room, environment={"PROGRAM": str(room / "none")})
    same(seat.end(), (1, f"live: {room}/none: No such file or directory\n", True))
    seat = begun("--steps", "10000000", folder=room)
    seat.type(b"'{}BRANCH A1{}\r".replace(b"{}B", b"{B").replace(b"1{}", b"1}"))
    seat.type(b"/RNC\\A\r\r")
    seat.type(b"\x1ba\x04")
    status, _, is_clean = seat.end()
    same((status, is_clean), (128 + signal.SIGTERM, True))
    seat = begun(folder=room)
    os.close(seat.master)
    same((seat.process.communicate(timeout=10)[1], seat.process.returncode), (b"", 128 + signal.SIGHUP))


def check_words(room):
    """What can't be is told before the screen is taken: a small terminal, a word of its own, a record that is there."""
    (room / "there").write_bytes(b"7~\n")
    for words, lines, columns, wanted in (
            ([], 24, 80, "live: the terminal has 24 lines of 80; 25 lines of 80 are needed\n"),
            ([], 25, 79, "live: the terminal has 25 lines of 79; 25 lines of 80 are needed\n"),
            (["--show=last"], 25, 80, "live: scripts/live [--record FILE] [words], without --show\n"),
            (["--record", "there"], 25, 80, "live: there: File exists\n")):
        seat = Seat([LIVE, *words], lines, columns, folder=room)
        same(seat.end(), (1, wanted, True))
    same((room / "there").read_bytes(), b"7~\n")


def check_size(room):
    """A terminal that becomes too small says so, and shows all again when it is large enough."""
    seat = begun(folder=room)
    seat.type(b"42\r")
    look(seat, b"42~", (4, 8))
    seat.resize(20, 60)
    seat.process.send_signal(signal.SIGWINCH)
    seat.until(lambda: "live:" in seat.screen.grid[0])
    same(seat.screen.grid[0].rstrip(), "live: the terminal has 20 lines of 60; 25 lines of 80 are ne")
    seat.resize(30, 100)
    seat.process.send_signal(signal.SIGWINCH)
    seat.until(lambda: seat.screen.place == (4, 8))
    same(([line[:80] for line in seat.screen.grid[:24]], seat.screen.place), (shown(b"42~"), (4, 8)))
    seat.type(b"\x04")
    same(seat.end(), (0, "", True))
