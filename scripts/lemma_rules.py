"""The rules of proofs: a lemma is named somewhere, its statement stands once, a public one has its line of meaning, and
a line fits the page. `scripts/check_text` says which files break one, and with --lemmas it counts them by crate."""
import collections
import re

MOST_COLUMNS = 120
WORD = re.compile(r'[^\s(){},;."@«»]+')
SIGNATURE = re.compile(r'^( *)((?:pub |abbrev |unfoldable |pattern )*)'
                       r'([^\s(){},;:.@"|=→≡×∙⊎]+)(?: \{[^}]*\})? :(?: |$)')
FUNCTION = re.compile(r" *pub (?:const )?fn (\w+)")
# What a proof is of: a relation, or a word that a value stands behind. A sort and a type of data have neither, and what
# yields one of these is a function.
PROVEN = re.compile(r"[≡≢≤<⊥⊎]|(?<![\w.])[a-z]")
# What a goal, an invariant or a measure is called is the toolchain's choice.
GIVEN = re.compile(r"(invariant|measure)[-_]")
Lemma = collections.namedtuple("Lemma", "file line name is_public indent end statement")


class Proofs:
    """The proofs of the repository, and what of them is named where."""

    def __init__(self, texts):
        self.texts = texts
        self.words = {file: words_of(text.split("\n")) for file, text in texts.items() if "/proofs/" in file}
        self.lemmas = [it for file in texts if "/proofs/" in file and file.endswith(".antt")
                       for it in lemmas_of(file, texts[file])]
        self.named = collections.defaultdict(set)
        for file, text in texts.items():
            for path in paths_in(file, text):
                self.named[path].add(file)

    def is_named(self, lemma):
        """Whether something besides its own text names a lemma: its file, or where it is public another one."""
        own = words_of(self.texts[lemma.file].split("\n")[lemma.line : lemma.end])
        if self.words[lemma.file][lemma.name] > own[lemma.name]:
            return True
        return lemma.is_public and bool(self.named[module_of(lemma.file), lemma.name] - {lemma.file})

    def unnamed(self):
        """The lemmas that nothing names."""
        return [it for it in self.lemmas if not self.is_named(it)]

    def repeated(self):
        """The statements that stand several times, each with its lemmas."""
        found = collections.defaultdict(list)
        for lemma in self.lemmas:
            if "→" in lemma.statement and PROVEN.search(target_of(lemma.statement)):
                found[with_numbered_names(with_single_arguments(lemma.statement))].append(lemma)
        return sorted((it for it in found.values() if len(it) > 1), key=len, reverse=True)

    def without_meaning(self):
        """The public lemmas above which no line says what they mean."""
        public = [it for it in self.lemmas if it.is_public]
        return [it for it in public if not self.texts[it.file].split("\n")[it.line - 1].lstrip().startswith("--")]


def module_of(file):
    """The module that a file of proofs is."""
    return "Rattle." + file[len("crates/") : -len(".antt")].replace("/", ".")


def words_of(lines):
    """How often each word stands in lines, but for comments."""
    return collections.Counter(word for line in lines if not line.lstrip().startswith("--")
                               for word in WORD.findall(line))


def lemmas_of(file, text):
    """The lemmas of a file: not the goals, nor the fields of records."""
    lines, found, record = text.split("\n"), [], None
    for at, line in enumerate(lines):
        indent = len(line) - len(line.lstrip())
        if record is not None and line.strip() not in ("", "}") and indent <= record:
            record = None
        if re.match(r" *(pub )?(data|record) |.*\brecord \{$", line):
            record = indent
        head = SIGNATURE.match(line)
        if record is None and head and not line.endswith(";"):
            lemma = lemma_at(file, lines, at, head)
            if not re.match(r"goal\.|\w+\.goal\b", lemma.statement) and not GIVEN.match(lemma.name):
                found.append(lemma)
    return found


def lemma_at(file, lines, at, head):
    """The lemma whose signature begins at a line: it ends before the next line that stands no deeper and isn't its
    own."""
    indent, name = len(head[1]), head[3]
    end = at + 1
    while end < len(lines):
        line = lines[end]
        begins = len(line) - len(line.lstrip()) <= indent and line.strip()
        if begins and not re.match(re.escape(name) + r"( |$)|unfolding|[\])}]", line.lstrip()):
            break
        end += 1
    last = at + 1
    while last < end and lines[last].startswith(" " * (indent + 1)) and lines[last].strip():
        last += 1
    signature = " ".join(it.strip() for it in lines[at:last])
    statement = signature.partition(" : ")[2] if " : " in signature else ""
    return Lemma(file, at, name, "pub" in head[2], indent, end, statement)


def paths_in(file, text):
    """What a file names of modules, each with its module."""
    for module, names in re.findall(r"use ([^\s{};]+)\.\{([^}]*)\}", text):
        for name in names.split(","):
            yield module, name.split(" as ")[0].strip()
    for module, short in re.findall(r"use ([^\s{};]+) as (\w+)", text):
        for name in re.findall(rf'(?<![\w.]){short}\.([^\s(){{}},;."@]+)', text):
            yield module, name
    for crate, path in re.findall(r"\b(\w+)::(proofs(?:::\w+)+)", text):
        *folders, name = path.split("::")
        yield ".".join(["Rattle", file.split("/")[1] if crate == "crate" else crate, *folders]), name


def target_of(statement):
    """What a statement yields: the part behind its last arrow, but for those in brackets."""
    depth = begins = 0
    for at, sign in enumerate(statement):
        depth += (sign in "({") - (sign in ")}")
        if sign == "→" and depth == 0:
            begins = at + 1
    return statement[begins:]


def with_single_arguments(statement):
    """A statement with each argument in brackets of its own, whether it is given or found: which of them are is no part
    of what is said."""
    statement = re.sub(
        r"[({]([^\s(){}:]+(?: [^\s(){}:]+)*) : ([^(){}]*|[^(){}]*\([^(){}]*\)[^(){}]*)[)}]",
        lambda it: " ".join(f"({name} : {it[2]})" for name in it[1].split(" ")),
        statement,
    )
    return statement.replace(") → (", ") (")


def with_numbered_names(statement):
    """A statement with its bound variables by number, so that two that differ by these names alone are one."""
    numbers = {}
    for names, others in re.findall(r"[({]([^\s(){}:]+(?: [^\s(){}:]+)*) : |λ ([^.]*?)\. ", statement):
        for name in WORD.findall(names or others):
            numbers.setdefault(name, f"#{len(numbers)}")
    words = re.findall(r'[^\s(){},;."@]+|[(){},;."@]', statement)
    return " ".join(numbers.get(it, it) for it in words)


def unnamed_functions(texts):
    """The public functions that no code names, but for those whose contract is a law: they stand in a crate for its
    sake."""
    code = {file: re.sub(r"//[^\n]*", "", text) for file, text in texts.items() if file.endswith(".rt")}
    words = collections.Counter(word for text in code.values() for word in re.findall(r"\b\w+\b", text))
    for file, text in code.items():
        for number, line in enumerate(text.split("\n"), 1):
            head = FUNCTION.match(line)
            if head and words[head[1]] == 1 and not re.search(r"\(\)$", line.rstrip(" {")):
                yield file, number, head[1]


def check(texts, fault):
    """Tells each fault."""
    for file, text in texts.items():
        if "/proofs/" in file:
            for number, line in enumerate(text.split("\n"), 1):
                if len(line) > MOST_COLUMNS:
                    fault(f"{file}:{number}: {len(line)} columns")
    proofs = Proofs(texts)
    for lemmas, what in ((proofs.unnamed(), "nothing names it"),
                         (proofs.without_meaning(), "it has no line of meaning")):
        for lemma in lemmas:
            fault(f"{lemma.file}:{lemma.line + 1}: {lemma.name}: {what}")
    for first, *others in proofs.repeated():
        for lemma in others:
            where = f"{first.file}:{first.line + 1}"
            fault(f"{lemma.file}:{lemma.line + 1}: {lemma.name}: {first.name} of {where} says the same")
    for file, number, name in unnamed_functions(texts):
        fault(f"{file}:{number}: no code names {name}")


def tell(texts):
    """Prints the statements that stand several times, and how many public lemmas have no meaning in each crate."""
    proofs = Proofs(texts)
    repeated = proofs.repeated()
    print(f"{len(repeated)} statements stand {sum(map(len, repeated))} times")
    for lemmas in repeated:
        print(f"  {lemmas[0].statement[:110]}")
        for it in lemmas:
            print(f"    {it.file}:{it.line + 1} {it.name}")
    told = collections.Counter(it.file.split("/")[1] for it in proofs.without_meaning())
    print(f"{sum(told.values())} public lemmas have no line of meaning: {by_crate(told)}")
    wide = collections.Counter(
        file.split("/")[1] for file, text in texts.items() if "/proofs/" in file for line in text.split("\n")
        if len(line) > MOST_COLUMNS
    )
    print(f"{sum(wide.values())} lines of proofs are wide: {by_crate(wide)}")


def by_crate(counts):
    """Counts by crate, in a line."""
    return ", ".join(f"{crate} {many}" for crate, many in sorted(counts.items()))
