"""Follows a gate's processes, and writes each crate's share into docs/TESTING.md."""
import glob
import os
import re
import resource
import subprocess
import sys
import time

TICKS = os.sysconf("SC_CLK_TCK")
KINDS = ("proof", "tests", "edits")
PAGE = "docs/TESTING.md"
BEGIN, END = "<!-- shares -->\n", "<!-- end of shares -->\n"


def processes():
    """Each process: its parent and the seconds that it has used."""
    found = {}
    for pid in filter(str.isdigit, os.listdir("/proc")):
        try:
            with open(f"/proc/{pid}/stat") as it:
                fields = it.read().rpartition(")")[2].split()
        except OSError:
            continue
        found[int(pid)] = int(fields[1]), (int(fields[11]) + int(fields[12])) / TICKS
    return found


def work_of(pid):
    """The crate and the kind of what this process proves, or none."""
    try:
        with open(f"/proc/{pid}/cmdline") as it:
            words = it.read().split("\0")
        folder = os.readlink(f"/proc/{pid}/cwd")
    except OSError:
        return None
    if "--crate-name" not in words:
        return None
    kind = "tests" if "--test" in words else "edits" if "/rt-edit-" in folder else "proof"
    return words[words.index("--crate-name") + 1], kind


def chain(pid, gate, found):
    """The process and those above it up to the gate, or none where it isn't below the gate."""
    above = []
    while pid != gate:
        if pid not in found or len(above) > 64:
            return []
        above.append(pid)
        pid = found[pid][0]
    return above


def look(gate, known, used):
    """Notes what each process below the gate has used, for the work of the nearest one above that has words of its
    own."""
    found = processes()
    for pid in found:
        for above in chain(pid, gate, found):
            if known.get(above) is None:
                known[above] = work_of(above)
            if known[above]:
                used[pid] = known[above], found[pid][1]
                break
    return gate in found


def rows_in(page):
    """The table's rows: crates with their seconds."""
    rows = {}
    for line in page.split("\n"):
        cells = [it.strip() for it in line.strip("| ").split("|")]
        if len(cells) == 5 and all(re.fullmatch(r"\d+", it) for it in cells[1:]) and cells[0] != "all":
            rows[cells[0]] = dict(zip(KINDS, map(int, cells[1:4])))
    return rows


def table(rows):
    """The table of docs/TESTING.md."""
    lines = ["| Crate | Proof | Tests | Edits | Sum |", "|---|---:|---:|---:|---:|"]
    row = lambda name, of: "| " + " | ".join([name, *(str(of[it]) for it in KINDS), str(sum(of.values()))]) + " |"
    for crate in sorted(rows, key=lambda it: (-sum(rows[it].values()), it)):
        lines.append(row(crate, rows[crate]))
    lines.append(row("all", {it: sum(of[it] for of in rows.values()) for it in KINDS}))
    return "\n".join(lines) + "\n"


def crates():
    """The crates of crates.txt."""
    with open("crates.txt", encoding="utf-8") as it:
        return {line.split(":")[0].split()[0] for line in it if ":" in line and not line.startswith("#")}


def has_tests(crate):
    """Whether a crate has tests."""
    for path in glob.glob(f"crates/{crate}/src/**/*.rt", recursive=True):
        with open(path, encoding="utf-8") as it:
            if "#[test]" in it.read():
                return True
    return False


def without_past_work(crate, of):
    """A crate's row, with nothing of tests and edits that it had once."""
    has = {"proof": True, "tests": has_tests(crate), "edits": bool(glob.glob(f"crates/{crate}/must-fail/*.edit"))}
    return {kind: of[kind] if has[kind] else 0 for kind in KINDS}


def used_by_children():
    """The seconds of the processes that have ended below this one."""
    of = resource.getrusage(resource.RUSAGE_CHILDREN)
    return of.ru_utime + of.ru_stime


def main(words):
    """Puts what a gate's log tells into the table."""
    used, known = {}, {}
    ran = None if words else subprocess.Popen(["taskset", "--cpu-list", "0", "rt", "ci", "--anew"])
    gate = int(words[0]) if words else ran.pid
    while look(gate, known, used) and (ran is None or ran.poll() is None):
        time.sleep(0.5)
    sums = {}
    for (crate, kind), seconds in used.values():
        of = sums.setdefault(crate, {})
        of[kind] = of.get(kind, 0) + seconds
    with open(PAGE, encoding="utf-8") as it:
        page = it.read()
    start, end = page.index(BEGIN) + len(BEGIN), page.index(END)
    rows = rows_in(page[start:end])
    for crate, of in sums.items():
        rows.setdefault(crate, dict.fromkeys(KINDS, 0)).update({kind: round(seconds) for kind, seconds in of.items()})
    listed = crates()
    with open(PAGE, "w", encoding="utf-8") as it:
        it.write(page[:start] + table({crate: without_past_work(crate, of) for crate, of in rows.items()
                                       if crate in listed}) + page[end:])
    print(f"gate: {sum(seconds for _, seconds in used.values()) / 60:.1f} minutes of one processor were seen")
    if ran is None:
        return 0
    status = ran.wait()
    print(f"gate: {used_by_children() / 60:.1f} minutes of one processor in all")
    return status


if __name__ == "__main__":
    sys.exit(main(sys.argv[1:]))
