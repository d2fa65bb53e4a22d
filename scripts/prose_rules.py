"""The rule of the documents' prose: a sentence has at most 35 words. `scripts/check_text` says where one has more."""
import re

MOST_WORDS = 35
PAGE = re.compile(r"(docs|examples|oracle)/[\w.]+\.md$|[A-Z]+\.md$")
ITEM = re.compile(r"\s*([-*]|\d+\.) ")
# Behind a sentence stands a space and what begins the next one.
BETWEEN = re.compile(r"(?<=[.!?])[)\"'*]*\s+(?=[A-Z`(\[*{./0-9\"'])")


def is_prose(line):
    """Whether a line is part of a paragraph, an item or a table, and no heading, rule or shown text."""
    return bool(line.strip()) and not re.match(r"#|```|\|---|    ", line)


def blocks(lines):
    """The paragraphs, items and cells of tables, each with the number of its first line."""
    kept, is_shown = None, False
    for number, line in enumerate(lines, 1):
        if line.startswith("```"):
            is_shown = not is_shown
        is_part = not is_shown and (is_prose(line) or kept is not None and line.startswith("    ") and line.strip())
        if kept and (not is_part or line.startswith("|") or ITEM.match(line)):
            yield kept
            kept = None
        if not is_part:
            continue
        if line.startswith("|"):
            for cell in line.strip().strip("|").split(" | "):
                yield number, cell.strip()
        else:
            kept = (kept[0], f"{kept[1]} {line.strip()}") if kept else (number, line.strip())
    if kept:
        yield kept


def is_list_of_names(text):
    """Whether a cell has nothing but names with commas between them."""
    return all(re.fullmatch(r"\w+", part) for part in text.split(", "))


def long_sentences(text):
    """The sentences of a page that are too long, each with the line where its paragraph begins and its words."""
    for number, block in blocks(text.split("\n")):
        if is_list_of_names(block):
            continue
        for sentence in BETWEEN.split(block):
            words = len(sentence.split())
            if words > MOST_WORDS:
                yield number, words, sentence


def check(files, fault):
    """Tells each sentence of the documents that is too long."""
    for name in files:
        if PAGE.match(name):
            with open(name, encoding="utf-8") as it:
                for number, words, sentence in long_sentences(it.read()):
                    fault(f"{name}:{number}: a sentence has {words} words: {sentence[:60]}..")
