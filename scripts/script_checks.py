"""What the launchers and the scripts for people must do, as `scripts/check_scripts` tries it: each check has a folder
of its own. The environment's PROGRAM is the program. What a key list shows and leaves is told by the oracle."""
import os
import pathlib
import re
import shutil
import subprocess
import sys
import tempfile
import time
import traceback

from laid_out import KeyList
from pages import TOP
import live_checks

sys.path.append(TOP)
from oracle.model.cli import run
from oracle.model.listing import told

TOP = pathlib.Path(TOP)
EXAMPLES = TOP / "examples"
LISTS = [
    # the keys of laid-out lists
    (b"A~\nB~", b"A~\nB~\n"),
    (b"# tells\n  # indented\n\t#\n{DOWN 2}A~ \r\n\n \t \n  b~", b"{DOWN 2}A~\nb~\n"),
    (b"{ }x{#}{ }  \n{#}NOT#1~\n1#AND#2 # no comment\n", b" x# \n#NOT#1~\n1#AND#2 # no comment\n"),
    (b"'{{}LET A1,{#}{}} ~\n", b"'{{}LET A1,#{}} ~\n"),
    (b"", b""),
]
CLOSE = b"""# the month's close, of which one branch is missing
{GOTO}C3~
    /FCANORTH~
    /FCAWEST~Title~{DOWN}
9%~{DOWN}
/FSJUNE~R
"""


def call(*words, keys=b"", folder=None, **environment):
    """A finished command: its standard output, its standard error and its status."""
    environment = {**os.environ, **{name: str(held) for name, held in environment.items()}}
    done = subprocess.run([str(word) for word in words], input=keys, cwd=folder, env=environment, capture_output=True,
                          check=False)
    return done.stdout.decode("latin-1"), done.stderr.decode("latin-1"), done.returncode


def script(name, *words, **how):
    """A finished script of this repository."""
    return call(TOP / "scripts" / name, *words, **how)


def stand_in(room, lines):
    """The path of a program that does what these lines of a shell say."""
    path = room / "stand-in"
    path.write_text(f"#!/bin/sh\n{lines}\n")
    path.chmod(0o755)
    return path


def same(found, wanted):
    """Two values are the same."""
    assert found == wanted, f"found {found!r}, wanted {wanted!r}"


def names_of_programs():
    """The programs that release/ holds."""
    return [path.name.removesuffix(".x86_64-linux") for path in sorted((TOP / "release").glob("*.x86_64-linux"))]


def check_help(room):
    """--help and --version alone are answered; beside other words they are the program's, which refuses them."""
    version = (TOP / "VERSION").read_text().strip()
    for name in names_of_programs():
        out, notes, status = call(TOP / name, "--help", folder=room)
        assert out.startswith(f"{name} ") and "--version" in out and (notes, status) == ("", 0), out + notes
        out, notes, status = call(TOP / name, "--version", folder=room)
        same((out.split("\n")[0], notes, status), (f"{name} {version}", "", 0))
    same(call(TOP / "1-2-3", "--help", "--count", folder=room)[1:], ("1-2-3: bad word: --help\n", 1))
    same(call(TOP / "1-2-3", "--count", "--version", folder=room)[1:], ("1-2-3: bad word: --version\n", 1))
    same(call(TOP / "1-2-3", "--file", "A B", folder=room)[1:], ("1-2-3: bad word: A B\n", 1))


def check_version_is_told_once(_):
    """The manual pages and the head of CHANGELOG.md tell the version that VERSION tells."""
    version = (TOP / "VERSION").read_text().strip()
    for page in (TOP / "man").glob("*.1"):
        assert f'"1-2-3 {version}"' in page.read_text().split("\n")[0], page.name
    same(re.findall(r"^## (\S+)", (TOP / "CHANGELOG.md").read_text(), re.MULTILINE)[0], version)


def check_start(room):
    """The launcher starts the program from anywhere: through links, from folders with spaces, without any command, and
    at once."""
    place = room / "a folder"
    place.mkdir()
    (place / "a link").symlink_to(TOP / "1-2-3")
    (place / "second").symlink_to("a link")
    wanted = run([], b"7~").frames[-1][:24]
    usual = os.environ["PATH"]
    for command, path in ((TOP / "1-2-3", "/nowhere"), (place / "a link", usual), ("./second", usual),
                          (TOP / "scripts/../1-2-3", usual)):
        out, notes, status = call(command, "--show", "last", keys=b"7~", folder=place, PATH=path)
        same((out.encode().split(b"\n")[:24], notes, status), (wanted, "", 0))
    times = []
    for _ in range(20):
        start = time.monotonic()
        call(TOP / "1-2-3", folder=place)
        times.append(time.monotonic() - start)
    assert min(times) < 0.03, f"{min(times) * 1000:.1f} ms"


def check_install(room):
    """make install makes a place that works by itself, and make uninstall takes its files away."""
    prefix = room / "own place"
    same(call("make", "-s", "-C", TOP, "install", f"PREFIX={prefix}")[1:], ("", 0))
    for name in names_of_programs():
        assert (prefix / f"share/man/man1/{name}.1").is_file()
        assert call(prefix / "bin" / name, "--version", folder=room)[0].startswith(f"{name} ")
    out, notes, status = call(prefix / "bin/1-2-3", "--show=last", keys=b"+1+1~", folder=room)
    same((out.encode().split(b"\n")[:24], notes, status), (run([], b"+1+1~").frames[-1][:24], "", 0))
    assert {path.name for path in (prefix / "share/doc/1-2-3").iterdir()} >= {"README.md", "CHANGELOG.md", "USER.md"}
    same(call("make", "-s", "-C", TOP, "uninstall", f"PREFIX={prefix}")[1:], ("", 0))
    same([str(path) for path in prefix.rglob("*") if not path.is_dir() or path.is_symlink()], [])


def check_listing(room):
    """1-2-3-list lists a worksheet as the oracle tells it, also an old version that git keeps, and git shows by it what
    differs in the two."""
    if "1-2-3-list" not in names_of_programs():
        return
    path = f"{TOP}:{os.environ['PATH']}"
    git = lambda *words: call("git", "-c", "user.name=office", "-c", "user.email=office@localhost", *words, folder=room,
                              PATH=path, HOME=room, GIT_CONFIG_NOSYSTEM=1)
    same(call(TOP / "1-2-3", keys=b"Branch~{DOWN}1310.5~{DOWN}+A2*2~/FSMAY~", folder=room)[1:], ("", 0))
    old = (room / "MAY.WK1").read_bytes()
    git("init", "-q")
    (room / ".gitattributes").write_text("*.WK1 diff=worksheet\n")
    git("config", "diff.worksheet.textconv", "sh -c '1-2-3-list < \"$1\"' -")
    git("add", ".")
    same(git("commit", "-q", "-m", "May")[1:], ("", 0))
    same(call(TOP / "1-2-3", "--file=MAY", keys=b"{GOTO}A2~1275~/FSMAY~R", folder=room)[1:], ("", 0))
    out, notes, status = git("diff", "--no-color", "MAY.WK1")
    same((notes, status), ("", 0))
    wanted = [told(data)[0].decode("latin-1").splitlines() for data in (old, (room / "MAY.WK1").read_bytes())]
    for sign, lines, others in (("-", *wanted), ("+", *reversed(wanted))):
        found = [line[1:] for line in out.splitlines() if line.startswith(sign) and not line.startswith(sign * 3)]
        same(found, [line for line in lines if line not in others])
    same(call(TOP / "1-2-3-list", keys=old), (told(old)[0].decode("latin-1"), "", 0))


def check_manual(_):
    """The manual pages are set without a warning, where a setter is there, and name every word that help names."""
    for page in sorted((TOP / "man").glob("*.1")):
        if shutil.which("groff"):
            out, notes, status = call("groff", "-ww", "-man", "-Tascii", "-P-c", page)
            same((notes, status), ("", 0))
            assert "EXIT STATUS" in re.sub(".\b", "", out), out
        text = page.read_text().replace("\\", "")
        for word in set(re.findall(r"--[a-z]+", call(TOP / page.stem, "--help")[0])):
            assert word in text, f"{page.name} does not name {word}"


def check_keys(room):
    """scripts/keys gives the keys that the rule of layout says."""
    for data, wanted in LISTS:
        (room / "list").write_bytes(data)
        same(script("keys", "list", folder=room), (wanted.decode(), "", 0))
        same(script("keys", "-", keys=data), (wanted.decode(), "", 0))
    for keys in EXAMPLES.glob("*.keys"):
        lines = [line for line in keys.read_bytes().split(b"\n") if line]
        same(KeyList(keys.read_bytes()).keys(), b"".join(line + b"\n" for line in lines))
    same(script("keys", "none", folder=room)[1:], ("keys: none: No such file or directory\n", 1))


def check_bytes(room):
    """scripts/trace tells the line and column of a byte of the keys."""
    (room / "list").write_bytes(CLOSE)
    for count, wanted in ((0, "0 bytes; the next is line 2, column 1"),
                          (9, "9 bytes end at line 2, column 9; the next is line 2, column 10"),
                          (10, "10 bytes end at line 2, column 10; the next is line 3, column 5"),
                          (63, "63 bytes end at line 6, column 10; these are all")):
        same(script("trace", "list", "--byte", count, folder=room), (wanted + "\n", "", 0))
    same(script("trace", "list", "--byte", 64, folder=room)[1:], ("trace: the keys are 63 bytes\n", 1))


def traced(keys, words, files):
    """The number, the steps, the last step and its mode of each line of keys, as the oracle has them."""
    before, done, out = 0, b"", []
    for number, line in enumerate(keys.split(b"\n"), 1):
        done += line + b"\n"
        if line:
            frames = run(words, done, dict(files)).frames
            mode = frames[-1][0][73:].decode().strip()
            out.append((number, f"steps {before + 1} to {len(frames)}", len(frames), mode))
            before = len(frames)
    return out


def check_trace(room):
    """scripts/trace tells the steps and modes that the oracle tells, also of macros, and changes no file."""
    for name in ("closing", "month"):
        files = {path.name: path.read_bytes() for path in EXAMPLES.glob(f"{name}.files/*")}
        words = ["--file", "JUNE"] if name == "closing" else []
        keys = (EXAMPLES / f"{name}.keys").read_bytes()
        place = room / name
        place.mkdir()
        for file, held in files.items():
            (place / file).write_bytes(held)
        out, notes, status = script("trace", EXAMPLES / f"{name}.keys", *words, folder=place)
        same((notes, status, out.split("\n")[-2]), ("", 0, "status 0"))
        steps = r"^line (\d+), ([^:]*):.*\n(?:  step .*\n)*?  step (\d+)  (\S+)  .*\n(?!  )"
        found = re.findall(steps, out, re.MULTILINE)
        same([(int(line), steps, int(last), mode) for line, steps, last, mode in found], traced(keys, words, files))
        same({path.name: path.read_bytes() for path in place.iterdir()}, files)


def check_what_went_wrong(room):
    """scripts/trace tells errors and refused entries within a line, the notes with their places, and the status."""
    for file in EXAMPLES.glob("closing.files/*"):
        shutil.copy(file, room)
    (room / "list").write_bytes(CLOSE)
    out = script("trace", "list", "--file", "JUNE", "--count", folder=room)[0].split("\n")
    files = {path.name: path.read_bytes() for path in EXAMPLES.glob("closing.files/*")}
    frames = run(["--file", "JUNE"], script("keys", "list", folder=room)[0], files).frames
    error = next(step for step, frame in enumerate(frames, 1) if frame[24].startswith(b"File does not exist"))
    assert any(re.match(rf"  step {error}  ERROR  C3: .* \| File does not exist$", line) for line in out), out
    refused = next(step for step, frame in enumerate(frames, 1) if (frame[0][73:77], frame[1][:3]) == (b"EDIT", b"9% "))
    assert any(re.match(rf"  step {refused}  EDIT  C4: .* \| 9%$", line) for line in out), out
    last = f"  step {len(frames)}  EDIT  C4: (,2) 8765.75  | {frames[-1][1].decode().rstrip()}"
    same(out[-4:], [last, out[-3], "status 0", ""])
    (room / "bad").write_bytes(b"# a word that is none\n  A{DOWN}~\n  'x{DWN}\n")
    out, _, status = script("trace", "bad", folder=room)
    same((out.split("\n")[-3:], status), (["1-2-3: bad key word at byte 13 (line 3, column 7)", "status 4", ""], 4))
    _, notes, status = script("trace", "bad", folder=room, PROGRAM=room / "none")
    same((notes, status), (f"trace: {room}/none: No such file or directory\n", 1))
    program = stand_in(room, "cat >keys; echo '1-2-3: step 8 at byte 8: File does not exist' >&2; exit 10")
    out, _, status = script("trace", "bad", folder=room, PROGRAM=program)
    told = "1-2-3: step 8 at byte 8: File does not exist (line 2, column 10)"
    same((out.split("\n")[-3:], status), ([told, "status 10", ""], 10))


def example_told(name):
    """What scripts/example must tell of the files that an example leaves."""
    out = []
    for left in sorted(EXAMPLES.glob(f"{name}.left/*")):
        first = EXAMPLES / f"{name}.files" / left.name
        state = "new" if not first.exists() else "as it was" if first.read_bytes() == left.read_bytes() else "changed"
        out.append(f"{left.name:<12} {left.stat().st_size:7d} bytes, {state}")
        if left.suffix in (".PRN", ".TXT"):
            out += left.read_bytes().decode("latin-1").split("\n")[:-1]
    return out


def check_examples(room):
    """scripts/example shows each example's stored screen and notes, and what it left, from any folder."""
    names = sorted(path.stem for path in EXAMPLES.glob("*.keys"))
    same(script("example", folder=room)[0].split(), names)
    for name in names:
        stored = next(path for path in (EXAMPLES / f"{name}.screen", EXAMPLES / f"{name}.screens") if path.exists())
        screen = stored.read_text().split("\n")[-27:-2]
        out, notes, status = script("example", name, folder=room)
        lines = out.split("\n")
        shown = [*lines[:24], " " * 15 + lines[24][15:]]
        same((name, shown, lines[25:-1]), (name, screen, ["status 0", *example_told(name)]))
        same((notes, status), ((EXAMPLES / f"{name}.notes").read_text(), 0))
        assert f"`{name}`" in (EXAMPLES / "README.md").read_text(), name
    same(list(room.iterdir()), [])


def check_kept_example(room):
    """scripts/example keeps the folder that it is given, and takes none that holds something."""
    same(script("example", "closing", "a new/folder", folder=room)[2], 0)
    kept = {path.name: path.read_bytes() for path in (room / "a new/folder").iterdir()}
    same(kept, {path.name: path.read_bytes() for path in EXAMPLES.glob("closing.left/*")})
    refused = script("example", "closing", "a new/folder", folder=room)
    same(refused, ("", "example: a new/folder is not an empty folder\n", 1))
    same(script("example", "no/such")[2], 1)


def main():
    """Tries each check; the status says whether one failed."""
    checks = [(name, check) for module in (sys.modules[__name__], live_checks)
              for name, check in vars(module).items() if name.startswith("check_")]
    failed = 0
    for name, check in checks:
        with tempfile.TemporaryDirectory() as room:
            try:
                check(pathlib.Path(room).resolve())
            except Exception:                                  # whatever fails is told, and the others are tried
                failed += 1
                print(f"scripts: {name}:\n{traceback.format_exc(limit=-2)}")
    print(f"scripts: {failed} of {len(checks)} checks failed" if failed else f"scripts: {len(checks)} checks are fine")
    return 1 if failed else 0


if __name__ == "__main__":
    sys.exit(main())
