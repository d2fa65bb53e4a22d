"""Looks at the program's calls on files in a save, and changes what a name leads to between the look for it and its
opening, by scripts/failing.c."""
import os
import subprocess
import sys
import tempfile

SHEET = bytes.fromhex("0000020006040100" "0000")
# what lies outside of the folder and would be shown, or lost
SECRET = bytes.fromhex("0000020006040f000d00ff0000000027" "73656372657400" "01000000")
OWNER, GROUP = 4_321, 4_322


class Folder:
    """A folder with a sheet X.WK1, beside which other files lie."""

    def __init__(self, program, shim):
        self.program, self.shim, self.room = program, shim, tempfile.TemporaryDirectory()
        self.path = os.path.join(self.room.name, "folder")
        os.mkdir(self.path)
        self.outside = os.path.join(self.room.name, "outside")
        self.write("X.WK1", SHEET)
        with open(self.outside, "wb") as it:
            it.write(SECRET)

    def __enter__(self):
        return self

    def __exit__(self, *_):
        self.room.cleanup()

    def write(self, name, held):
        """Writes a file into the folder."""
        with open(os.path.join(self.path, name), "wb") as it:
            it.write(held)

    def run(self, keys, **around):
        """Runs the program in the folder with the library loaded before."""
        around["LD_PRELOAD"] = self.shim
        return subprocess.run([self.program, "--show", "ansi"], input=keys, capture_output=True, env=around, timeout=60,
                              cwd=self.path)

    def calls(self, keys):
        """The calls from the making of a file on."""
        told = os.path.join(self.room.name, "calls")
        self.run(keys, CALLS=told)
        with open(told) as it:
            lines = it.read().splitlines()
        made = [at for at, line in enumerate(lines) if line.startswith("make ")]
        return lines[made[0]:] if made else lines


def order(program, shim):
    """A file beside is for its owner alone, has its rights before its bytes, and its name when it is on the disk."""
    faults = []
    size = 100
    beside = "X.WK1.saving.000"
    tail = [f"write {size}", "sync", f"rename {beside} X.WK1", "open .", "sync"]
    with Folder(program, shim) as folder:
        os.chmod(os.path.join(folder.path, "X.WK1"), 0o640)
        got = folder.calls(b"sixteen~/FSX~R")
        if got != [f"make {beside} 600", "rights 640", *tail]:
            faults.append(f"an old file: {got}")
    with Folder(program, shim) as folder:
        os.remove(os.path.join(folder.path, "X.WK1"))
        got = folder.calls(b"sixteen~/FSX~")
        if got != [f"make {beside} 666", *tail]:
            faults.append(f"a new name: {got}")
    if os.geteuid() == 0:
        with Folder(program, shim) as folder:
            os.chown(os.path.join(folder.path, "X.WK1"), OWNER, GROUP)
            got = folder.calls(b"sixteen~/FSX~R")
            if got != [f"make {beside} 600", f"own {OWNER} {GROUP}", "rights 644", *tail]:
                faults.append(f"another's file: {got}")
    return faults


def swapped(program, shim):
    """What comes under a name between the look and the opening is neither read nor written, nor waited for."""
    faults = []
    for what, keys in (("link", b"/FRX~"), ("link", b"5~/FSX~R"), ("link", b"/FEX~Y"), ("pipe", b"5~/FSX~R"),
                       ("pipe", b"/FEX~Y")):
        with Folder(program, shim) as folder:
            other = os.path.join(folder.path, "X.WK1.other")
            if what == "link":
                os.symlink(folder.outside, other)
            else:
                os.mkfifo(other)
            ran = folder.run(keys, SWAP="X.WK1")
            left = sorted(os.listdir(folder.path))
            with open(folder.outside, "rb") as it:
                is_kept = it.read() == SECRET
            is_told = b"Disk error" in ran.stdout and b"secret" not in ran.stdout
            if ran.returncode or not is_told or not is_kept or left != ["X.WK1"]:
                faults.append(f"{what} {keys}: status {ran.returncode}, told: {is_told}, kept: {is_kept}, left {left}")
    # another plain file is another save: it is read
    with Folder(program, shim) as folder:
        folder.write("X.WK1.other", SECRET)
        ran = folder.run(b"/FRX~", SWAP="X.WK1")
        if b"secret" not in ran.stdout or b"Disk error" in ran.stdout:
            faults.append("a file that another program saved meanwhile isn't read")
    return faults


def main(words):
    """Checks the calls of saves, and saves whose names change; 1 where one is not as it must be."""
    bad = 0
    with tempfile.TemporaryDirectory() as room:
        shim = f"{room}/failing.so"
        subprocess.run(["scripts/compile", "-O1", "-shared", "-fPIC", "-o", shim, "scripts/failing.c"], check=True)
        for check in (order, swapped):
            faults = check(os.path.abspath(words[0]), shim)
            for why in faults[:5]:
                print(f"  {why}")
            print(f"{check.__name__}: {len(faults)} faults")
            bad += len(faults)
    return 1 if bad else 0


if __name__ == "__main__":
    sys.exit(main(sys.argv[1:]))
