"""What one reads to know what the program promises: the definitions that the clauses of `run` reach, file by file, each
file before those that it stands on.

    scripts/reading_list            the files with the names of their definitions and their lines, and the code's types
    scripts/reading_list --text     the definitions themselves
    scripts/reading_list --count    how many they are
    scripts/reading_list --rest     the definitions that these clauses don't reach: those of other calls and of proofs
    scripts/reading_list CRATE::CALL ..      the same from other calls' clauses on

Lines are counted of the definitions, and beside them those that say above one or within it what it means. A type of the
code that a definition names stands in the list by its file, and counts nothing. A word that a definition binds hides
one that is brought in under the same name, in the whole definition.
"""
import collections
import glob
import os
import re
import sys

TOP = os.path.dirname(os.path.dirname(os.path.realpath(__file__)))
TOP_CALL = "sheet_run::run"
HEAD = re.compile(r"( *)(?:pub )?((?:abbrev )?mutual$|abbrev|unfoldable|record|data)(?: (?:pub )?([^\s:]+))?")
NEXT = re.compile(r"( *)(?:--|(?:pub )?(?:abbrev|unfoldable|record|data|mutual|module)\b)")
WORD = re.compile(r"[^\s(){}\[\],;\\]+")


class Definition:
    """A definition of specs/, or several that stand in one `mutual`."""

    def __init__(self, names, lines, parameters):
        self.names, self.lines, self.parameters = names, lines, parameters

    def body(self):
        """Its lines without those that say what it means."""
        return [it for it in self.lines if not it.lstrip().startswith("--")]

    def bound(self):
        """The names that it binds: parameters, its own and its module's, and what λ and `let` name."""
        names = set(self.parameters)
        for line in self.body():
            for group in re.findall(r"[({]([^(){}:]+?) : ", line):
                names.update(group.split())
            for group in re.findall(r"λ ([^.]+)\.", line):
                names.update(re.findall(r"[\w']+", group))
            names.update(re.findall(r"\blet ([\w']+)", line))
        return names

    def is_equation(self, line):
        """Whether an equation begins in a line: its name stands no further in than where its type was told."""
        words = line.split()
        head = len(self.body()[0]) - len(self.body()[0].lstrip())
        within = 2 if self.body()[0].endswith("mutual") else 0
        return words[0] in self.names and words[1:2] != [":"] and len(line) - len(line.lstrip()) == head + within

    def parts(self):
        """Its type, and each equation."""
        part = []
        for line in self.body():
            if part and self.is_equation(line):
                yield part
                part = []
            part.append(line)
        yield part

    def cited(self, source):
        """What it cites, as modules and names."""
        bound = self.bound()
        for part in self.parts():
            text, here = "\n".join(part), set(bound)
            if self.is_equation(part[0]):
                here |= {it for it in WORD.findall(text.split(" =", 1)[0]) if re.match(r"[a-z]", it)}
            text = re.sub(r"(?m)(?<=[{;])\s*\w+ = |^\s+(pub )?\w+ (=|:) ", " ", text)
            for word in WORD.findall(text):
                yield from source.resolved(word, here)


class Source:
    """A file: what it brings in by `use`, in clauses by `ghost use`, and its definitions."""

    def __init__(self, path, ghost=""):
        self.path = os.path.relpath(path, TOP)
        self.module = self.path[len("crates/"):].rpartition(".")[0].replace("/", ".")
        with open(path, encoding="utf-8") as it:
            self.lines = it.read().rstrip("\n").split("\n")
        self.brought, self.aliases = {}, {}
        for line in self.lines:
            self.bring(line, ghost)
        self.definitions = [] if ghost else definitions(self.lines)
        self.by_name = {name: it for it in self.definitions for name in it.names}
        self.operators = {it.replace("◌", ""): it for it in [*self.brought, *self.by_name] if "◌" in it}

    def bring(self, line, ghost):
        """Takes what a line brings in."""
        words = re.match(rf"\s*{ghost}use Rattle\.([\w.]+)\.\{{(.*)\}};?$", line)
        module = re.match(rf"\s*{ghost}use Rattle\.([\w.]+?)(?: as (\w+))?;?$", line)
        if words:
            for part in words.group(2).split(","):
                name, _, other = part.strip().partition(" as ")
                self.brought[other or name] = words.group(1), name
        elif module:
            self.aliases[module.group(2) or module.group(1).split(".")[-1]] = module.group(1)

    def resolved(self, word, hidden=()):
        """The definition that a word names, if it names one, as its module and name."""
        first, _, rest = word.strip(".").partition(".")
        first = self.operators.get(first, first)
        if first in hidden:
            return
        if rest and first in self.aliases:
            yield self.aliases[first], rest.split(".")[0]
        if first in self.by_name:
            yield self.module, first
        elif first in self.brought:
            yield self.brought[first]

    def clauses(self, name):
        """What the clauses of a call of this name cite, where it stands in this file."""
        for at, line in enumerate(self.lines):
            if re.match(rf"\s*(pub )?(const )?fn {name}\b", line):
                end = at
                while end < len(self.lines) and not re.match(r"\s*\{\}?$|.*\) \{$", self.lines[end]):
                    end += 1
                for word in WORD.findall("\n".join(self.lines[at:end])):
                    yield from self.resolved(word)


def definitions(lines):
    """The definitions of a file, those within a `module` too."""
    found, parameters, at = [], [], 0
    while at < len(lines):
        if lines[at].startswith("module _ "):
            parameters = re.findall(r"[({]([^(){}:]+?) : ", lines[at])
        head = HEAD.match(lines[at])
        if not head:
            at += 1
            continue
        end = end_of(lines, at, len(head.group(1)))
        names = [head.group(3)] if head.group(3) else names_within(lines[at:end], len(head.group(1)) + 2)
        begins = at
        while begins and lines[begins - 1].startswith(head.group(1) + "--"):
            begins -= 1
        bound = [name for group in parameters for name in group.split()] if head.group(1) else []
        found.append(Definition(names, [it for it in lines[begins:end] if it], bound))
        at = end
    return found


def end_of(lines, at, indent):
    """Behind the last line of a definition: the next one, or a comment, begins no further in."""
    end = at + 1
    while end < len(lines):
        head = NEXT.match(lines[end])
        if head and len(head.group(1)) <= indent:
            break
        end += 1
    return end


def names_within(lines, indent):
    """The names that the lines of a `mutual` define."""
    heads = (re.match(rf" {{{indent}}}(?:pub )?(?:record |data )?([^\s:]+)(?: .*)? : ", line) for line in lines)
    return [it.group(1) for it in heads if it]


def clauses_of(call):
    """What the clauses of a call cite."""
    crate, _, name = call.partition("::")
    for path in sorted(glob.glob(f"{TOP}/crates/{crate}/src/**/*.rt", recursive=True)):
        yield from Source(path, "ghost ").clauses(name)


def every_source():
    """The files of specs/, by their modules."""
    paths = sorted(glob.glob(f"{TOP}/crates/*/specs/**/*.antt", recursive=True))
    return {it.module: it for it in map(Source, paths)}


def reached(starts, sources):
    """The definitions that are reached, each with what it cites, and the types of the code."""
    found, types, todo = {}, set(), list(starts)
    while todo:
        module, name = todo.pop()
        crate, is_type, place = module.partition(".specs.declared.")
        source = sources.get(module)
        if is_type and crate != "std":
            types.add((crate, place.removesuffix(".TheVariants")))
        elif source and name in source.by_name:
            definition = source.by_name[name]
            if (module, definition.names[0]) not in found:
                found[module, definition.names[0]] = cites = list(definition.cited(source))
                todo += cites
    return found, types


def reading_order(found, starts):
    """The modules, each before those that it stands on, and else in the order in which they are first cited."""
    below = collections.defaultdict(dict)
    for (module, _), cites in found.items():
        below[module].update((other, True) for other, _ in cites if other != module)
    modules, order, seen = {module for module, _ in found}, [], set()

    def visit(module):
        if module in modules and module not in seen:
            seen.add(module)
            for other in reversed(below[module]):
                visit(other)
            order.append(module)

    for module, _ in reversed(starts):
        visit(module)
    return order[::-1]


def counted(definitions_there):
    """How many lines of definitions these are, and how many of what they mean."""
    lines = sum(len(it.body()) for it in definitions_there)
    return lines, sum(len(it.lines) for it in definitions_there) - lines


def length(call=TOP_CALL):
    """The lines of definitions that a call reaches, those of what they mean, and the files."""
    sources = every_source()
    found, _ = reached(clauses_of(call), sources)
    these = [sources[module].by_name[name] for module, name in found]
    return (*counted(these), len({module for module, _ in found}))


def told(found, order, sources, texts):
    """Prints the definitions in their order, by files."""
    for module in order:
        source = sources[module]
        these = [it for it in source.definitions if (module, it.names[0]) in found]
        print(f"{source.path}: {counted(these)[0]} lines" + ("" if texts else ": "
                                                             + ", ".join(name for it in these for name in it.names)))
        if texts:
            print("".join("\n" + "\n".join(it.lines) + "\n" for it in these))


def rest(found, sources):
    """Prints the definitions that aren't reached, by files."""
    total = 0
    for module, source in sources.items():
        these = [it for it in source.definitions if (module, it.names[0]) not in found]
        total += counted(these)[0]
        if these:
            which = "all" if len(these) == len(source.definitions) else f"{len(these)} of {len(source.definitions)}"
            print(f"{source.path}: {counted(these)[0]} lines, {which}: {', '.join(it.names[0] for it in these)}")
    print(f"{total} lines of definitions that aren't reached")


def main():
    """Prints the definitions that a call's clauses reach, in the order in which one reads them."""
    words = [it for it in sys.argv[1:] if it.startswith("--")]
    calls = [it for it in sys.argv[1:] if not it.startswith("--")] or [TOP_CALL]
    if set(words) - {"--text", "--count", "--rest"} or len(words) > 1 or any("::" not in it for it in calls):
        print(__doc__.strip(), file=sys.stderr)
        return 2
    sources = every_source()
    starts = [it for call in calls for it in clauses_of(call)]
    found, types = reached(starts, sources)
    if not found:
        print(f"no definition is cited by the clauses of {' '.join(calls)}", file=sys.stderr)
        return 1
    if "--rest" in words:
        rest(found, sources)
        return 0
    if "--count" not in words:
        told(found, reading_order(found, starts), sources, "--text" in words)
        for crate, place in sorted(types):
            print(f"crates/{crate}/src/{'/'.join(place.split('.')[:-1])}.rt: the type {place.split('.')[-1]}")
    lines, meanings = counted([sources[module].by_name[name] for module, name in found])
    files = len({module for module, _ in found})
    print(f"{lines} lines of definitions in {files} files, {meanings} more of what they mean, "
          f"and {len(types)} types of the code")
    return 0


if __name__ == "__main__":
    try:
        sys.exit(main())
    except BrokenPipeError:
        os.dup2(os.open(os.devnull, os.O_WRONLY), sys.stdout.fileno())
