"""Saves of the program where others save too, where rights, room or the stack are short, and where keys and screens
don't wait; and sums over whole columns, and words that are no text.
What must come of them is told by the oracle.

python3 -B scripts/save_checks.py PROGRAM

It runs at the top of the repository. What only the system's administrator can set up is left out for anyone else, and
told."""
import fcntl
import os
import resource
import shutil
import signal
import subprocess
import sys
import tempfile
import threading
import time

sys.path.insert(0, os.getcwd())

from oracle.model import wk1
from oracle.tests import host

ROUNDS = 100
SIZES = (100, 400, 1_000, 10_000, 60_000, 100, 300_000, 2_000, 30_000, 500)
LARGE = {25: 1_000_000, 50: 10_000_000, 75: 3_000_000}
MOST_BYTES = 67_108_864
OWNER, GROUP = 4_321, 4_322
# the bytes of a saved sheet without cells, and of a label beside its text
BARE, LABEL = 82, 11
WIDEST = 240
# what sums over whole columns may add to the most memory of a run, in bytes
MOST_OF_SUMS = 1_000_000


# ---------------------------------------------------------------- sheets

def record(kind, body=b""):
    """A record of a worksheet file."""
    return kind.to_bytes(2, "little") + len(body).to_bytes(2, "little") + body


def label(at, text):
    """The record of a label in a cell."""
    return record(0x0F, b"\xff" + (at % 256).to_bytes(2, "little") + (at // 256).to_bytes(2, "little") + b"'" + text
                  + b"\0")


def worksheet(size, byte):
    """A worksheet's file, which is saved with so many bytes, as its labels of this byte make it."""
    room, cells = size - BARE, []
    while room > 0:
        length = min(room, WIDEST + LABEL)
        if 0 < room - length < LABEL:
            length -= LABEL
        cells.append(label(len(cells), byte * (length - LABEL)))
        room -= length
    return record(0x00, b"\x06\x04") + b"".join(cells) + record(0x01)


def saved(file):
    """What is saved of a file's sheet."""
    return wk1.write(wk1.read(file))


def formula(code):
    """A worksheet's file with a formula of this code in A1, in the format Text."""
    return record(0x00, b"\x06\x04") + record(0x10, b"\xf5" + bytes(12) + len(code).to_bytes(2, "little")
                                              + code) + record(0x01)


# ---------------------------------------------------------------- runs

class Room:
    """A folder with files, in which the program runs."""

    def __init__(self, program, **files):
        self.program, self.folder = program, tempfile.mkdtemp()
        os.chmod(self.folder, 0o777)
        for name, held in files.items():
            self.write(name + ".WK1", held)

    def __enter__(self):
        return self

    def __exit__(self, *_):
        shutil.rmtree(self.folder)

    def path(self, name):
        """The path of a file in the folder."""
        return os.path.join(self.folder, name)

    def write(self, name, held, rights=0o644, owner=-1, group=-1):
        """Writes a file with these rights and owners."""
        with open(self.path(name), "wb") as file:
            file.write(held)
        os.chown(self.path(name), owner, group)
        os.chmod(self.path(name), rights)

    def read(self, name):
        """The bytes of a file in the folder."""
        with open(self.path(name), "rb") as file:
            return file.read()

    def names(self):
        """The names in the folder."""
        return sorted(os.listdir(self.folder))

    def run(self, keys, *words, **more):
        """Runs the program in the folder."""
        return subprocess.run([self.program, *words], input=keys, capture_output=True, cwd=self.folder, timeout=300,
                              **more)


def unless(is_so, why):
    """A fault, where it isn't so."""
    return [] if is_so else [why]


# ---------------------------------------------------------------- two programs at once

def look(room, whole, faults, is_over):
    """Reads the file until all is over, and tells each reading that is none of the whole ones."""
    while not is_over.is_set():
        if room.read("X.WK1") not in whole:
            faults.append("a reader saw a file that is none of the whole ones")


def one_round(program, number, kept):
    """Two programs save two sheets under one name while readers look."""
    size = LARGE.get(number, SIZES[number % len(SIZES)])
    other = SIZES[(number * 3 + 1) % len(SIZES)] if number not in LARGE else size - 37
    for sheet in ((size, b"a"), (other, b"b")):
        if sheet not in kept:
            file = worksheet(*sheet)
            kept[sheet] = (file, saved(file))
    (first, first_saved), (second, second_saved) = kept[size, b"a"], kept[other, b"b"]
    old = saved(worksheet(BARE, b""))
    keys = b"/FSX~R" * (3 if number in LARGE else 20)
    with Room(program, A=first, B=second, X=old) as room:
        faults, is_over = [], threading.Event()
        readers = [threading.Thread(target=look, args=(room, (old, first_saved, second_saved), faults, is_over))
                   for _ in range(2)]
        savers = [subprocess.Popen([program, "--file", name, "--show", "ansi"], stdin=subprocess.PIPE,
                                   stdout=subprocess.PIPE,
                                   stderr=subprocess.PIPE, cwd=room.folder) for name in "AB"]
        for reader in readers:
            reader.start()
        for saver in savers:
            saver.stdin.write(keys)
            saver.stdin.close()
        for saver in savers:
            out, notes = saver.stdout.read(), saver.stderr.read()
            if saver.wait() or notes or b"Disk error" in out:
                shown = b"Disk error" in out and "a disk error"
                faults.append(f"a saver ended with {saver.returncode} and {notes!r}, and shows {shown}")
        is_over.set()
        for reader in readers:
            reader.join()
        faults += unless(room.names() == ["A.WK1", "B.WK1", "X.WK1"], f"there is left {room.names()}")
        faults += unless(room.read("X.WK1") in (first_saved, second_saved), "the file left is none of the two")
    return [f"round {number}, files of {size} and {other} bytes: {why}" for why in faults[:2]]


def two_programs(program):
    """Two programs save under one name while others read it."""
    kept = {}
    return [why for number in range(ROUNDS) for why in one_round(program, number, kept)]


# ---------------------------------------------------------------- what can't be read back

def too_large(program):
    """A file of the most bytes is saved; with one more cell Save and Xtract are refused, and no file changes."""
    file = worksheet(MOST_BYTES, b"x")
    with Room(program, BIG=file) as room:
        ran = room.run(b"/FSOUT~{GOTO}IV8192~y~/FS~R~/FXFTWO~A1.IV8192~~/FXVTWO~A1.IV8192~~", "--file", "BIG", "--show",
                       "pages")
        faults = unless(ran.returncode == 0 and not ran.stderr, f"status {ran.returncode}, {ran.stderr!r}")
        count = ran.stdout.count(b"Worksheet too large")
        faults += unless(count == 3, f"it tells {count} times that the worksheet is too large")
        faults += unless(room.names() == ["BIG.WK1", "OUT.WK1"], f"there is left {room.names()}")
        if "OUT.WK1" in room.names():
            out = room.read("OUT.WK1")
            faults += unless(len(out) == MOST_BYTES and out == saved_of_labels(file),
                             "the file of the most bytes isn't what is to be saved")
        again = room.run(b"{ESC}", "--file", "OUT", "--show", "last")
        faults += unless(again.returncode == 0, f"what was saved isn't read: {again.stderr!r}")
    return faults


def saved_of_labels(file):
    """What is saved of a sheet of labels alone: its cells as they stand in the file, behind what is saved of any
    sheet."""
    cells = file[6:-4]
    count = (len(cells) + WIDEST + LABEL - 1) // (WIDEST + LABEL)
    front = bytearray(saved(worksheet(BARE, b""))[:-4])
    front[14:18] = min(count - 1, 255).to_bytes(2, "little") + ((count - 1) // 256).to_bytes(2, "little")
    return bytes(front) + cells + record(0x01)


# ---------------------------------------------------------------- rights

def after_save(program, rights, owner=-1, group=-1, who=None):
    """The rights, the owner and the group of a file that is saved over, and whether it was."""
    old = saved(worksheet(BARE, b""))
    with Room(program) as room:
        room.write("X.WK1", old, rights, owner, group)
        ran = room.run(b"5~/FSX~R", "--show", "ansi", **(who or {}))
        state = os.stat(room.path("X.WK1"))
        is_saved = room.read("X.WK1") != old
        is_told = b"Disk error" in ran.stdout
        if is_saved == is_told or ran.returncode or room.names() != ["X.WK1"]:
            return f"saved: {is_saved}, told: {is_told}, status {ran.returncode}, left {room.names()}"
        return oct(state.st_mode & 0o7777), state.st_uid, state.st_gid, is_saved


def of_new_name(program, umask):
    """The rights of a new file under this umask."""
    with Room(program) as room:
        room.run(b"5~/FSX~", umask=umask)
        return oct(os.stat(room.path("X.WK1")).st_mode & 0o7777)


def rights(program):
    """A save keeps the rights, owner and group of the file whose place it takes."""
    own, group = os.geteuid(), os.getegid()
    faults = []
    for old, new in ((0o644, 0o644), (0o640, 0o640), (0o600, 0o600), (0o755, 0o755), (0o4755, 0o755), (0o2770, 0o770),
                     (0o1666, 0o666)):
        got = after_save(program, old)
        faults += unless(got == (oct(new), own, group, True), f"a file of the rights {old:o} becomes {got}")
    got = after_save(program, 0o444)
    faults += unless(got == (oct(0o444), own, group, False), f"a file that nobody may write becomes {got}")
    for umask in (0o022, 0o077, 0o002, 0o007):
        got = of_new_name(program, umask)
        faults += unless(got == oct(0o666 & ~umask), f"a new file under the umask {umask:o} has the rights {got}")
    return faults


def rights_of_others(program):
    """Files of other owners and groups, which only the system's administrator can make."""
    user = {"user": OWNER, "group": GROUP, "extra_groups": []}
    member = {"user": OWNER, "group": GROUP, "extra_groups": [50]}
    faults = []
    for old, owner, group, who, wanted in (
        # the administrator saves another's file
        (0o640, OWNER, 50, {}, (0o640, OWNER, 50, True)),
        # the owner is of the file's group, or not
        (0o660, OWNER, 50, member, (0o660, OWNER, 50, True)),
        (0o660, OWNER, 50, user, (0o600, OWNER, GROUP, True)),
        (0o664, OWNER, 50, user, (0o644, OWNER, GROUP, True)),
        (0o646, OWNER, 50, user, (0o646, OWNER, GROUP, True)),
        (0o671, OWNER, 50, user, (0o611, OWNER, GROUP, True)),
        # one of the group saves another's file
        (0o664, 1, 50, member, (0o664, OWNER, 50, True)),
        (0o666, 1, 1, user, (0o666, OWNER, GROUP, True)),
        # one who may not write it
        (0o644, 1, 1, user, (0o644, 1, 1, False)),
        (0o640, 1, 50, member, (0o640, 1, 50, False)),
        (0o460, OWNER, 50, member, (0o460, OWNER, 50, False)),
    ):
        got = after_save(program, old, owner, group, who)
        wanted = (oct(wanted[0]), *wanted[1:])
        faults += unless(got == wanted,
                         f"a file of the rights {old:o}, of {owner} and {group}, becomes {got}, not {wanted}")
    return faults


# ---------------------------------------------------------------- what is left beside

def left_beside(program):
    """What a program left that was killed is neither opened nor taken away, and takes no name that is needed."""
    left = {f"X.WK1.saving.{number:03}": b"left %d" % number for number in range(12)}
    with Room(program) as room:
        for name, held in left.items():
            room.write(name, held, 0o600)
        ran = room.run(b"5~/FSX~/FS~R", "--show", "ansi")
        faults = unless(ran.returncode == 0 and b"Disk error" not in ran.stdout,
                        f"status {ran.returncode}, or a disk error")
        faults += unless(room.names() == ["X.WK1", *left], f"there is left {room.names()}")
        faults += [f"{name} isn't as it was" for name, held in left.items() if room.read(name) != held]
    return faults


# ---------------------------------------------------------------- keys and screens that don't wait

def slowly(file, held):
    """Writes bytes into a pipe one by one, until nobody reads any more."""
    try:
        for at in range(len(held)):
            os.write(file, held[at:at + 1])
            time.sleep(0.003)
    except BrokenPipeError:
        pass
    os.close(file)


def not_waiting(program):
    """Keys and screens through pipes that don't wait: a slow writer, and a slow reader of a pipe with little room."""
    keys = b"5~{DOWN}+A1*2~/WCS20~x~{UP}" * 2
    plain = host.Host([], keys, False, {}, [None], {}, None)
    wanted, _ = host.expected(plain)
    (source, typed), (seen, shown) = os.pipe(), os.pipe()
    fcntl.fcntl(shown, 1031, 4096)
    os.set_blocking(source, False)
    os.set_blocking(shown, False)
    with Room(program) as room:
        running = subprocess.Popen([program], stdin=source, stdout=shown, stderr=subprocess.PIPE, cwd=room.folder)
        os.close(source)
        os.close(shown)
        threading.Thread(target=slowly, args=(typed, keys)).start()
        got = b""
        while part := os.read(seen, 1500):
            got += part
            time.sleep(0.001)
        os.close(seen)
        notes, status = running.stderr.read(), running.wait()
    faults = unless(status == wanted.status and notes == wanted.notes, f"status {status}, notes {notes!r}")
    return faults + unless(without_moments(got) == without_moments(wanted.screens), "the screens differ")


def without_moments(pages):
    """Pages without the moment in the last line, which the host's clock tells."""
    lines = pages.split(b"\n")
    return [b" " * 15 + line[15:] if at % 26 == 24 else line for at, line in enumerate(lines)]


# ---------------------------------------------------------------- limits of the system

def limited(which, most):
    """What sets a limit of the host before a program starts."""
    def set_limits():
        signal.signal(signal.SIGXFSZ, signal.SIG_DFL)
        resource.setrlimit(which, (most, most))
    return set_limits


def file_sizes(program):
    """Under a limit of a file's size a save that passes it is a disk error, and the old file stays."""
    old, faults = saved(worksheet(BARE, b"")), []
    for most, is_saved in ((0, False), (1, False), (92, False), (93, True), (4_096, True)):
        for name, held in (("X.WK1", None), ("X.WK1", old)):
            with Room(program) as room:
                if held:
                    room.write(name, held)
                ran = room.run(b"5~/FSX~" + (b"R" if held else b""), "--show", "ansi",
                               preexec_fn=limited(resource.RLIMIT_FSIZE, most))
                told = b"Disk error" in ran.stdout
                faults += unless(ran.returncode == 0 and told != is_saved,
                                 f"limit {most}: status {ran.returncode}, told: {told}")
                left = {it: room.read(it) for it in room.names()}
                faults += unless(is_saved or left == ({name: held} if held else {}),
                                 f"limit {most}: there is left {sorted(left)}")
    return faults


def small_stacks(program):
    """A stack of 1 MB serves the deepest formulas, and a smaller one is refused at once."""
    one = b"\x05\x01\x00"
    codes = {
        "signs": one + b"\x08" * 255,
        "brackets": one + b"\x04" * 255,
        "sums": one + (one + b"\x09") * 255,
        "powers": one + (b"\x04" + one + b"\x0d") * 127,
        "calls": one + b"\x21" * 255,
        "lists": one + b"\x50\x01" * 255,
        "choices": one * 255 + one + (one + b"\x3b") * 255,
    }
    faults = []
    for kind, code in codes.items():
        files = {"DEEP.WK1": host.plain(formula(code + b"\x03"))}
        keys = b"{CALC}{EDIT}~{ESC}/C~B1~{RIGHT}/RE~{LEFT}/FSOUT~"
        wanted, _ = host.expected(host.Host(["--file", "DEEP"], keys, False, {}, [None], files, None))
        with Room(program, DEEP=files["DEEP.WK1"].data) as room:
            ran = room.run(keys, "--file", "DEEP", preexec_fn=limited(resource.RLIMIT_STACK, 1 << 20))
            same = without_moments(ran.stdout) == without_moments(wanted.screens)
            faults += unless((ran.returncode, ran.stderr) == (wanted.status, wanted.notes),
                             f"{kind}: {ran.returncode}, {ran.stderr!r}")
            faults += unless(same, f"{kind}: the screens differ")
    for most in (1 << 16, 1 << 18, (1 << 20) - 4096):
        with Room(program) as room:
            ran = room.run(b"5~", preexec_fn=limited(resource.RLIMIT_STACK, most))
            ended = (ran.returncode, ran.stdout, ran.stderr)
            faults += unless(ended == (9, b"", b"1-2-3: stack too small\n"), f"a stack of {most}: {ended}")
    return faults


def most_memory(program, keys):
    """The most memory of a run with these keys, in bytes."""
    with Room(program) as room:
        room.write("keys", keys)
        with open(room.path("keys"), "rb") as given:
            ran = subprocess.Popen([program, "--show", "last"], stdin=given, stdout=subprocess.DEVNULL, cwd=room.folder)
            _, ran.returncode, used = os.wait4(ran.pid, 0)
        return used.ru_maxrss * 1024


def sums_of_columns(program):
    """Sixteen whole columns, which a formula adds up 115 times, take no memory that grows with their cells."""
    full = b"1~/C~A1..P8192~/RNCX~A1..P8192~{GOTO}R1~"
    bare, faults = most_memory(program, full + b"1~"), []
    for function in (b"SUM", b"AVG", b"COUNT", b"MAX", b"MIN"):
        added = most_memory(program, full + b"@" + function + b"(" + b",".join([b"X"] * 115) + b")~") - bare
        faults += unless(added < MOST_OF_SUMS, f"115 @{function.decode()} add {added} bytes")
    return faults


def refused_words(program):
    """A refused word is told byte for byte, also where it is no text, and of several the first."""
    faults = []
    for words, told in (
        ([b"caf\xe9"], b"caf\xe9"),
        ([b"\xff first", b"--second"], b"\xff first"),
        ([b"--count", b"\xc3(", b"--strict=1"], b"\xc3("),
        ([b"--steps", b"\x80", b"\xfe"], b"\x80"),
        ([b"--count", b"--count", b"\xfe"], b"--count"),
    ):
        with Room(program) as room:
            ran = room.run(b"5~", *words)
            ended = (ran.returncode, ran.stdout, ran.stderr)
            faults += unless(ended == (1, b"", b"1-2-3: bad word: " + told + b"\n"), f"{words}: {ended}")
    return faults


def main(words):
    """Runs all checks; 1 where one fails."""
    checks = [two_programs, too_large, rights, left_beside, not_waiting, file_sizes, small_stacks, sums_of_columns,
              refused_words]
    if os.geteuid() == 0:
        checks.append(rights_of_others)
    else:
        print("saves: files of other owners are left out: only the system's administrator can make them")
    bad = 0
    with tempfile.TemporaryDirectory() as room:
        # anyone may run it there
        os.chmod(room, 0o755)
        program = shutil.copy(words[0], room)
        for check in checks if len(words) < 2 else [it for it in checks if it.__name__ in words[1:]]:
            began = time.monotonic()
            faults = check(program)
            for why in faults[:5]:
                print(f"saves: {check.__name__}: {why}"[:400])
            took = time.monotonic() - began
            print(f"saves: {check.__name__.replace('_', ' ')}: {len(faults)} faults in {took:.0f} s")
            bad += len(faults)
    return 1 if bad else 0


if __name__ == "__main__":
    sys.exit(main(sys.argv[1:]))
