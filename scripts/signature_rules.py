"""The rule of signatures: a function takes at most six parameters. `scripts/check_text` says which take more, and which
of those that may no longer do."""
import re

MOST_PARAMETERS = 6
# The functions that may take more, by crate and name: the signature of `run` is what the program reaches.
EXEMPT = {("sheet_run", "run")}
HEAD = re.compile(r"^ *(?:pub(?:\([a-z]+\))? )?(?:(?:const|unsafe|ghost) )*fn (\w+)", re.MULTILINE)
OPENING, CLOSING = "([{<", ")]}>"


def parameters(text, at):
    """How many parameters the function has whose name ends here: the commas between the brackets, but those deeper."""
    depth = count = 0
    is_begun = has_text = False
    while True:
        byte = text[at]
        is_arrow = byte == ">" and text[at - 1] in "-="
        if byte in CLOSING and not is_arrow:
            depth -= 1
            if is_begun and depth == 0:
                return count + has_text
        elif is_begun and depth == 1 and byte == ",":
            count, has_text = count + 1, False
        elif is_begun and not byte.isspace():
            has_text = True
        if byte in OPENING:
            is_begun = is_begun or byte == "(" and depth == 0
            depth += 1
        at += 1


def check(texts, fault):
    """Tells each function with more parameters, and each that is exempt and has no more."""
    seen = set()
    for file, text in texts.items():
        if not file.endswith(".rt"):
            continue
        code = re.sub(r"//[^\n]*", "", text)
        for head in HEAD.finditer(code):
            many = parameters(code, head.end())
            if many <= MOST_PARAMETERS:
                continue
            own = file.split("/")[1], head[1]
            seen.add(own)
            if own not in EXEMPT:
                fault(f"{file}:{code.count(chr(10), 0, head.start()) + 1}: {head[1]} takes {many} parameters")
    for crate, name in sorted(EXEMPT - seen):
        fault(f"scripts/signature_rules.py: {name} of {crate} takes no more than {MOST_PARAMETERS} parameters now")
