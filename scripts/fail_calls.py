"""Runs the program on the examples' keys with one call of its own failing, each in turn, by scripts/failing.c."""
import concurrent.futures
import glob
import os
import subprocess
import sys
import tempfile

# what a run may end with where such a call failed: the status and the note, behind `1-2-3: `
ENDINGS = {
    "memory": {(9, b"memory full"), (9, b"")},
    "read": {(5, b"keys failed")},
    "write": {(7, b"display failed")},
    "notes": {(8, b"")},
    "clock": set(),
    "short-read": set(),
    "short-write": set(),
    "interrupted": set(),
}
# a run that the failure did not touch ends as if there were none
MAY_END_AS_BEFORE = {"memory", "clock", "short-read", "short-write", "interrupted"}
AS_IF_NONE = "it ended as if no call had failed"


def page_lines(out):
    """The lines of pages, without the moments; in ERROR the message stands there."""
    lines = out.split(b"\n")
    for at in range(24, len(lines), 26):
        if lines[at - 24][73:78] != b"ERROR":
            lines[at] = b" " * 15 + lines[at][15:]
    return lines


def content(path):
    """The bytes of a file."""
    with open(path, "rb") as it:
        return it.read()


def files_in(folder):
    """What a folder holds, by name."""
    return {name: content(f"{folder}/{name}") for name in sorted(os.listdir(folder))}


class Calls:
    """The program over one example's keys, each time in a folder of its own."""

    def __init__(self, program, shim, keys, words):
        example = keys.removesuffix(".keys")
        self.program, self.shim, self.keys = program, shim, content(keys)
        own_words = content(f"{example}.words").decode().split() if os.path.exists(f"{example}.words") else []
        self.words = own_words + words
        self.files = files_in(f"{example}.files") if os.path.exists(f"{example}.files") else {}
        self.before, self.between = self.run("", 0), None

    def run(self, kind, number, tell=None, more=()):
        """Runs the example with a call of a kind failing."""
        env = {"LD_PRELOAD": self.shim, "FAILING": kind, "FAIL_AT": str(number)}
        if tell:
            env["FAIL_TELL"] = tell
        with tempfile.TemporaryDirectory() as room:
            for name, held in self.files.items():
                with open(f"{room}/{name}", "wb") as it:
                    it.write(held)
            ran = subprocess.run([self.program, *self.words, *more], input=self.keys, capture_output=True, env=env,
                                 timeout=120, cwd=room)
            return ran.returncode, page_lines(ran.stdout), ran.stderr, files_in(room)

    def count(self, kind):
        """How many such calls an undisturbed run makes, and the numbers of those that find no file."""
        with tempfile.NamedTemporaryFile() as tell:
            self.run(kind, 0, tell.name)
            number, *absent = map(int, tell.read().split() or [0])
            return number, absent

    def left_behind_steps(self):
        """The files that a run without failures has left behind each of its steps."""
        if self.between is None:
            steps = len(self.before[1]) // 26
            self.between = [self.run("", 0, more=["--steps", str(number)])[3] for number in range(1, steps + 1)]
        return self.between

    def are_whole(self, left):
        """Whether each file left is one of before, or one that a run without failures has left behind some step."""
        for name, held in left.items():
            if held not in (self.files.get(name), self.before[3].get(name)):
                if not any(held == files.get(name) for files in self.left_behind_steps()):
                    return False
        return True

    def file_fault(self, status, lines, notes, left):
        """Why a run in which a file's call failed did not end as it should."""
        if not set(left) <= set(self.before[3]) | set(self.files):
            return f"it left {sorted(left)}"
        if status == 6 and notes.endswith(b": disk error\n") and left == self.files:
            return None
        other = next((at for at, (line, old) in enumerate(zip(lines, self.before[1])) if line != old), 0) // 26
        # a macro that goes on has caught it
        if not any(line.startswith(b"Disk error") or b"CMD" in line for line in lines[26 * other + 24:26 * other + 25]):
            return (f"status {status}, notes {notes!r}, and the first other screen tells no disk error, "
                    "and no macro goes on")
        return None

    def fault(self, kind, number):
        """Why a run with this call failing did not end as it should, or whether it ended as before."""
        status, lines, notes, left = self.run(kind, number)
        if (status, lines, notes, left) == self.before:
            return "as before" if kind in MAY_END_AS_BEFORE else AS_IF_NONE
        if kind == "file":
            return self.file_fault(status, lines, notes, left)
        last = notes.rstrip(b"\n").split(b"\n")[-1]
        if (status, last.removeprefix(b"1-2-3: ")) not in ENDINGS[kind]:
            return f"status {status}, notes {notes!r}"
        if not self.are_whole(left):
            return f"it left {sorted(left)}, not each of them whole"
        shown = lines[:-1]
        # a write that failed may have been of a part of a page
        if shown != self.before[1][: len(shown)]:
            return "it showed what no front of the run without failures shows"
        return None


def tried(calls, kind, name, pool):
    """Fails the calls of a kind in turn and tells what went wrong; whether nothing did."""
    count, absent = calls.count(kind)
    if not count and kind == "file":
        return True
    faults = list(pool.map(lambda number: calls.fault(kind, number), range(1, count + 1)))
    # where no file is found anyway, a macro may catch either error
    faults = ["as before" if number in absent and why == AS_IF_NONE else why for number, why in enumerate(faults, 1)]
    bad = [(number, why) for number, why in enumerate(faults, 1) if why and why != "as before"]
    same = faults.count("as before")
    print(f"{name}: {kind}: {count} calls failed in turn: {count - same - len(bad)} runs told it, "
          f"{same} ended as before, {len(bad)} are wrong")
    for number, why in bad[:3]:
        print(f"  call {number}: {why}")
    return not bad


def main(words):
    """Fails the calls of each kind of each example in turn; 1 where one went wrong."""
    program, kinds = words[0], words[1:]
    is_well = True
    with tempfile.TemporaryDirectory() as room, concurrent.futures.ThreadPoolExecutor(os.cpu_count()) as pool:
        shim = f"{room}/failing.so"
        subprocess.run(["scripts/compile", "-O1", "-shared", "-fPIC", "-o", shim, "scripts/failing.c"], check=True)
        for keys in sorted(glob.glob("examples/*.keys")):
            # all pages, since a run that stops early shows a front of them
            calls = Calls(program, shim, keys, ["--show", "pages", "--count"])
            for kind in kinds:
                is_well = tried(calls, kind, keys, pool) and is_well
    print("all ended as they should" if is_well else "some did not end as they should")
    return 0 if is_well else 1


if __name__ == "__main__":
    sys.exit(main(sys.argv[1:]))
