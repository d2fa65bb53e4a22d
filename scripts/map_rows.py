"""The rows of the map of crates, with what each crate stands on from crates.txt. `scripts/make_map` writes them."""

MAP = "docs/ARCHITECTURE.md"


def named_by_crates():
    """What each crate of crates.txt names, in the order of its line."""
    named = {}
    with open("crates.txt", encoding="utf-8") as it:
        for line in it:
            if line.strip() and not line.startswith("#"):
                crate, _, cited = line.partition(":")
                named[crate.split()[0]] = cited.split()
    return named


def with_cited(line, named):
    """A row of the map with what its crate stands on; any other line as it is."""
    cells = [it.strip() for it in line.strip().strip("|").split(" | ")]
    if not line.startswith("| ") or len(cells) != 3 or cells[0] not in named:
        return line
    return f"| {cells[0]} | {cells[1]} | {', '.join(named[cells[0]]) or 'std'} |"


def main():
    """Writes what each crate stands on into the map."""
    with open(MAP, encoding="utf-8") as it:
        old = it.read()
    named = named_by_crates()
    new = "\n".join(with_cited(line, named) for line in old.split("\n"))
    if new != old:
        with open(MAP, "w", encoding="utf-8") as it:
            it.write(new)
    print(f"map: {'written anew' if new != old else 'as it was'}")


if __name__ == "__main__":
    main()
