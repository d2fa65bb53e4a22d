"""The rules of the repository's text. `scripts/check_text` says which files break one."""
import collections
import re
import subprocess
import sys

import definitions
import lemma_rules
import prose_rules
import python_rules
import signature_rules

TOP_FILES = {".gitignore", "1-2-3", "1-2-3-list", "CHANGELOG.md", "HANDLES", "Makefile", "README.md", "VERSION",
             "crates.txt"}
TOP_FOLDERS = {".ci", "bench", "crates", "docs", "examples", "man", "oracle", "release", "scripts"}
CRATE_PARTS = {"src", "specs", "proofs", "must-fail", "wrong-bodies", "data", "stdin", "stdout", "args", "status"}
PRODUCTS = re.compile(r"(^|/)(out|__pycache__)/|\.(o|a|so|rlib|oantt|stamp|pyc)$")
SECTIONS = ["base", "formulas", "sheet", "session", "program", "checks"]
MOST_LINES, MOST_BODY, MOST_COLUMNS, MOST_EDITS, MOST_THEOREMS = 800, 41, 120, 3, 220
FUNCTION = re.compile(r"^( *)(pub(\([a-z]+\))? )?((const|unsafe|ghost) )*fn (\w+)")


class Rules:
    """The files, and the faults that were found."""

    def __init__(self, files):
        self.files = files
        self.faults = []

    def fault(self, text):
        """Notes a fault."""
        self.faults.append(text)

    def all(self):
        """Looks at all files by all rules."""
        self.places()
        for name in self.files:
            try:
                with open(name, encoding="utf-8") as it:
                    lines = it.read().split("\n")
            except (UnicodeDecodeError, FileNotFoundError, IsADirectoryError):
                continue
            self.one_machine(name, lines)
            if name.endswith(".rt"):
                self.lengths(name, lines)
                self.function_meanings(name, lines)
                self.numbers(name, lines)
            if "/specs/" in name or name.endswith(".rt"):
                self.own_numbers(name, lines)
            if "/specs/" in name and name.endswith(".antt"):
                self.definition_meanings(name, lines)
                self.numbers(name, lines)
            if name.endswith(".rt") or "/specs/" in name:
                self.columns(name, lines)
        self.edits()
        self.map_of_crates()
        self.theorems()

    def own_numbers(self, name, lines):
        """A definition takes no number from the code: two constants of the code that change places change no
        meaning."""
        for number, line in enumerate(lines, 1):
            if re.match(r"\s*(ghost )?use .*\bTheConstants\b", line):
                self.fault(f"{name}:{number}: a definition takes a constant of the code")
            if "/specs/" in name and "/specs/inner/" not in name and re.match(r"use Rattle\.\w+\.specs\.inner\.", line):
                self.fault(f"{name}:{number}: a definition cites the code's books, which stand in inner/")

    def places(self):
        """Only known names stand at the top and in a crate, and no build product is kept."""
        for name in self.files:
            if PRODUCTS.search(name):
                self.fault(f"{name}: a build product")
            top, _, rest = name.partition("/")
            if top not in (TOP_FOLDERS if rest else TOP_FILES):
                self.fault(f"{name}: an unknown name at the top")
            if top == "crates" and (rest.count("/") < 1 or rest.split("/")[1] not in CRATE_PARTS):
                self.fault(f"{name}: an unknown name in a crate")
            if name.endswith((".rt", ".antt")) and top != "crates":
                self.fault(f"{name}: no check reads it")

    def one_machine(self, name, lines):
        """No path of a machine; the scripts and the gate may name what they look for."""
        if name.startswith("scripts/"):
            return
        for number, line in enumerate(lines, 1):
            if re.search(r"/(work|farm|opt/rattle|root)/", line):
                self.fault(f"{name}:{number}: a path of a machine")

    def lengths(self, name, lines):
        """Files and functions are short."""
        if len(lines) > MOST_LINES:
            self.fault(f"{name}: {len(lines)} lines")
        start = body = None
        for number, line in enumerate(lines, 1):
            head = FUNCTION.match(line)
            if head:
                start = number, head.group(1), head.group(6)
                body = number if line.endswith("{") else None
            if start and body is None and re.match(start[1] + r"(\).*)?\{$", line):
                body = number
            if start and body and line == start[1] + "}":
                if number - body > MOST_BODY:
                    self.fault(f"{name}:{start[0]}: {start[2]} has {number - body - 1} lines")
                start = None

    def function_meanings(self, name, lines):
        """Each function has its line of meaning, but `main`, tests, and what a trait's impl must have."""
        of_trait = False
        for at, line in enumerate(lines):
            if re.match(r"(unsafe )?impl\b", line):
                of_trait = bool(re.search(r"\bfor\b", line))
            elif line == "}":
                of_trait = False
            head = FUNCTION.match(line)
            if not head or of_trait or head.group(6) == "main":
                continue
            above = at - 1
            attributes = []
            while above >= 0 and not lines[above].lstrip().startswith("//") and re.search(r"\]$|^ *#\[|^ *\)",
                                                                                          lines[above]):
                attributes.append(lines[above].strip())
                above -= 1
            if "#[test]" in attributes or lines[max(above, 0)].lstrip().startswith("//"):
                continue
            self.fault(f"{name}:{at + 1}: {head.group(6)} has no line of meaning")

    def definition_meanings(self, name, lines):
        """Each definition has its line of meaning above it."""
        for at, line in enumerate(lines):
            head = re.match(r"(?:pub )?(?:abbrev|unfoldable|data|record) (?:pub )?(\w+)", line)
            if head and not (at and lines[at - 1].lstrip().startswith("--")):
                self.fault(f"{name}:{at + 1}: {head.group(1)} has no line of meaning")

    def numbers(self, name, lines):
        """The last row and the longest text have names, in code and in definitions."""
        for at, line in enumerate(lines):
            code = re.split("//|--", line)[0]
            if re.search(r"(?<![\w.])(8191|8192|240)(u8|u16|u32|usize|i64)?(?![\w.])",
                         code) and not re.match(r" *(pub(\(\w+\))? )?const |[A-Z_]+ = ", code):
                self.fault(f"{name}:{at + 1}: a number that has a name: {line.strip()[:90]}")

    def columns(self, name, lines):
        """Clauses and definitions fit the page; what is imported, and the lemmas that a proof is given, may run on."""
        for at, line in enumerate(lines):
            if len(line) > MOST_COLUMNS and not re.match(r"(pub )?(ghost )?use | *#\[tactic\(", line):
                self.fault(f"{name}:{at + 1}: {len(line)} columns")

    def edits(self):
        """The gate tries a few wrong bodies of each crate, and the others stand beside them."""
        count = collections.Counter(name.split("/")[1] for name in self.files
                                    if re.match(r"crates/\w+/must-fail/.*\.edit$", name))
        for crate, many in sorted(count.items()):
            if many > MOST_EDITS:
                self.fault(f"crates/{crate}/must-fail: {many} edits; the gate tries {MOST_EDITS}, "
                           "and wrong-bodies/ keeps the others")
        for name in self.files:
            if re.match(r"crates/\w+/(must-fail|wrong-bodies)/.*\.edit$", name):
                self.edit(name, "/".join(name.split("/")[:2]))

    def edit(self, name, crate):
        """An edit names text that stands once in its file."""
        texts, path, old = {}, None, None
        with open(name, encoding="utf-8") as it:
            lines = it.read().split("\n")
        for line in lines:
            word, _, rest = line.partition(": ")
            if word == "file":
                path = f"{crate}/{rest}"
                if path not in self.files:
                    self.fault(f"{name}: there is no file {path}")
                    return
                with open(path, encoding="utf-8") as it:
                    texts.setdefault(path, it.read())
            elif word == "old":
                old = rest
            elif word == "new" or line == "new:":
                if texts[path].count(old) != 1:
                    self.fault(f"{name}: its text stands in {path} {texts[path].count(old)} times, not once")
                texts[path] = texts[path].replace(old, rest)

    def map_of_crates(self):
        """crates.txt, the folders of crates/ and the table of docs/ARCHITECTURE.md tell the same."""
        named = crates_named(self.fault)
        folders = {name.split("/")[1] for name in self.files if name.startswith("crates/")}
        for crate in sorted(folders ^ set(named)):
            self.fault(f"{crate}: " + ("crates.txt does not name it" if crate in folders
                                       else "crates.txt names it, and there is no such folder"))
        rows = rows_of_map(self.fault)
        for crate in sorted(set(named) ^ set(rows)):
            self.fault(f"{crate}: " + ("docs/ARCHITECTURE.md has no row for it" if crate in named
                                       else "docs/ARCHITECTURE.md has a row for it, and crates.txt none"))
        for crate in sorted(set(named) & set(rows)):
            section, cited = named[crate]
            if rows[crate] != (section, cited):
                self.fault(f"{crate}: docs/ARCHITECTURE.md says {rows[crate][0]}: {' '.join(sorted(rows[crate][1]))}; "
                           f"crates.txt says {section}: {' '.join(sorted(cited))}")
            for kind in ("check", "test", "time"):
                if re.search(rf"_{kind}s?$|_rows$|_timing$", crate):
                    self.fault(f"{crate}: checking programs are check_*, test crates test_*, timing programs time_*")
                    break
        check_cited(named, self.files, self.fault)


    def theorems(self):
        """docs/THEOREMS.md is short, and names calls and files of definitions that are there."""
        try:
            with open("docs/THEOREMS.md", encoding="utf-8") as it:
                lines = it.read().split("\n")
        except FileNotFoundError:
            return
        if len(lines) > MOST_THEOREMS:
            self.fault(f"docs/THEOREMS.md: {len(lines)} lines")
        self.length_of_definitions("\n".join(lines))
        code = collections.defaultdict(str)
        for name in self.files:
            if re.match(r"crates/\w+/src/.*\.rt$", name):
                with open(name, encoding="utf-8") as it:
                    code[name.split("/")[1]] += it.read()
        for number, line in enumerate(lines, 1):
            cells = [it.strip() for it in line.strip().strip("|").split("|")]
            if not line.startswith("| ") or len(cells) != 3 or cells[0] == "Theorem":
                continue
            crates = [word for word in re.findall(r"\w+", re.sub(r"`[^`]*`", "", cells[1])) if word in code]
            for call in re.findall(r"`([\w:]+)`", cells[1]):
                last = call.split("::")[-1]
                if not any(re.search(rf"\b(fn|struct|trait|enum|type) {last}\b", code[crate]) for crate in crates):
                    self.fault(f"docs/THEOREMS.md:{number}: no crate that it names has {call}")
            for part in cells[2].split(";"):
                crate, *files = re.findall(r"[\w/]+", part)
                for word in files:
                    if word in code:
                        crate = word
                    elif f"crates/{crate}/specs/{word}.antt" not in self.files:
                        self.fault(f"docs/THEOREMS.md:{number}: there is no file {word} of {crate}'s definitions")

    def length_of_definitions(self, text):
        """docs/THEOREMS.md tells how much one reads, to a fiftieth: the lines and files that scripts/reading_list
        counts."""
        told = re.search(r"some ([\d,]+) lines in (\d+) files, with ([\d,]+) more", text)
        if not told:
            self.fault("docs/THEOREMS.md: it doesn't tell how many lines of definitions there are to read")
            return
        lines, meanings, files = definitions.length()
        for number, now in zip(told.groups(), (lines, files, meanings)):
            if abs(int(number.replace(",", "")) - now) * 50 > now:
                self.fault(f"docs/THEOREMS.md: tells {number} of the definitions to read "
                           f"where scripts/reading_list counts {now}")


def crates_named(fault):
    """Each crate of crates.txt: its section and what it names."""
    named, section = {}, None
    with open("crates.txt", encoding="utf-8") as it:
        for number, line in enumerate(it, 1):
            line = line.rstrip("\n")
            head = re.match(r"# == (\w+)$", line)
            if head:
                section = head.group(1)
                if section not in SECTIONS:
                    fault(f"crates.txt:{number}: an unknown section {section}")
            elif line and not line.startswith("#"):
                crate, _, cited = line.partition(":")
                if section is None:
                    fault(f"crates.txt:{number}: {crate} stands in no section")
                named[crate.split()[0]] = section, frozenset(cited.split())
    return named


def rows_of_map(fault):
    """Each crate of the map: its section and what it stands on."""
    rows, section = {}, None
    with open("docs/ARCHITECTURE.md", encoding="utf-8") as it:
        for number, line in enumerate(it, 1):
            head = re.match(r"### (\w+)", line)
            if head:
                section = head.group(1).lower()
            elif line.startswith("## "):
                section = None
            cells = [it.strip() for it in line.strip().strip("|").split("|")]
            if section in SECTIONS and line.startswith("| ") and len(cells) == 3 and cells[0] not in ("Crate",):
                cited = frozenset() if cells[2] == "std" else frozenset(cells[2].replace(",", " ").split())
                for crate in cells[0].replace(",", " ").split():
                    if crate in rows:
                        fault(f"docs/ARCHITECTURE.md:{number}: {crate} has two rows")
                    rows[crate] = section, cited
    return rows


def check_cited(named, files, fault):
    """A crate names what its code, definitions and proofs cite, and nothing else."""
    cited = collections.defaultdict(set)
    for name in files:
        if not name.endswith((".rt", ".antt")) or not name.startswith("crates/"):
            continue
        crate = name.split("/")[1]
        try:
            with open(name, encoding="utf-8") as it:
                text = it.read()
        except FileNotFoundError:
            continue
        cited[crate].update(re.findall(r"\bRattle\.(\w+)\.", text))
        if name.endswith(".rt"):
            code = re.sub(r"//[^\n]*", "", text)
            cited[crate].update(re.findall(r"\b(\w+)::", code))
    for crate, (_, listed) in sorted(named.items()):
        for other in sorted(cited[crate] & set(named) - {crate} - listed):
            fault(f"{crate}: cites {other}, which its line of crates.txt does not name")
        for other in sorted(listed - cited[crate]):
            fault(f"{crate}: its line of crates.txt names {other}, which it does not cite")


def texts_of(files):
    """The code, the definitions and the proofs of the crates, by file."""
    texts = {}
    for name in files:
        if re.match(r"crates/.*\.(rt|antt)$", name):
            with open(name, encoding="utf-8") as it:
                texts[name] = it.read()
    return texts


def main():
    """Prints the faults; 1 where there are any."""
    files = [it for it in subprocess.run(["git", "ls-files"], capture_output=True, text=True).stdout.split("\n") if it]
    rules = Rules(files)
    rules.all()
    prose_rules.check(files, rules.fault)
    python_rules.check(files, rules.fault)
    texts = texts_of(files)
    lemma_rules.check(texts, rules.fault)
    signature_rules.check(texts, rules.fault)
    if "--lemmas" in sys.argv[1:]:
        lemma_rules.tell(texts)
    print("\n".join(rules.faults) if rules.faults else "text: fine")
    return 1 if rules.faults else 0


if __name__ == "__main__":
    sys.exit(main())
