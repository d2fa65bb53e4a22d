"""The rules of the Python code: functions are short and told, and the packages of the oracle stand on those below them
alone. `scripts/check_text` says what breaks one."""
import ast
import re

MOST_LINES, MOST_COLUMNS, MOST_IN_FILE = 40, 120, 800
# Each package of the oracle, and the packages that it may stand on.
BELOW = {"model": {"model"}, "make": {"model", "make"}, "tests": {"model", "make", "tests"}}


def functions_of(tree):
    """The functions and classes of a module, each with whether it stands in a function."""
    stack = [(node, False) for node in tree.body]
    while stack:
        node, is_inner = stack.pop()
        is_function = isinstance(node, ast.FunctionDef)
        if is_function or isinstance(node, ast.ClassDef):
            yield node, is_inner
        stack += [(child, is_inner or is_function) for child in ast.iter_child_nodes(node)]


def check_functions(name, tree, fault):
    """A function has at most 40 lines, and its line of meaning, but for those of Python's own names and those in
    others."""
    if not ast.get_docstring(tree):
        fault(f"{name}: the module has no line of meaning")
    for node, is_inner in functions_of(tree):
        lines = node.end_lineno - node.lineno + 1
        if isinstance(node, ast.FunctionDef) and lines > MOST_LINES:
            fault(f"{name}:{node.lineno}: {node.name} has {lines} lines")
        if not is_inner and not node.name.startswith("__") and node.name != "_" and not ast.get_docstring(node):
            fault(f"{name}:{node.lineno}: {node.name} has no line of meaning")


def check_lines(name, text, fault):
    """A file has at most 800 lines, each of at most 120 columns."""
    lines = text.decode().split("\n")
    if len(lines) > MOST_IN_FILE:
        fault(f"{name}: {len(lines)} lines")
    for number, line in enumerate(lines, 1):
        if len(line) > MOST_COLUMNS:
            fault(f"{name}:{number}: {len(line)} columns")


def imports_of(name, tree):
    """The modules of the oracle that a module of it imports, with the lines where it does."""
    package = name[:-3].split("/")[:-1]
    for node in ast.walk(tree):
        if isinstance(node, ast.ImportFrom) and node.level:
            base = package[: len(package) - node.level + 1] + (node.module.split(".") if node.module else [])
            if len(base) > 2:
                yield node.lineno, "/".join(base) + ".py"
            else:
                yield from ((node.lineno, "/".join([*base, it.name]) + ".py") for it in node.names)


def check_packages(imported, fault):
    """A module of the oracle imports from its own package and those below it, and no two import each other in a
    circle."""
    for name, others in imported.items():
        package = name.split("/")[1]
        for number, other in others:
            if package in BELOW and other.split("/")[1] not in BELOW[package]:
                fault(f"{name}:{number}: {package} stands on {' '.join(sorted(BELOW[package]))}, and takes {other}")
    left = {name: {other for _, other in others if other in imported} for name, others in imported.items()}
    while True:
        ready = {name for name, others in left.items() if not others}
        if not ready:
            break
        left = {name: others - ready for name, others in left.items() if name not in ready}
    for name in sorted(left):
        fault(f"{name}: it stands in a circle of imports, or on one: {' '.join(sorted(left[name]))}")


def check(files, fault):
    """Tells each fault of the Python code."""
    imported = {}
    for name in files:
        if not re.match(r"(oracle|scripts|bench)/", name):
            continue
        with open(name, "rb") as it:
            text = it.read()
        if not name.endswith(".py") and not text.startswith(b"#!/usr/bin/env python3"):
            continue
        tree = ast.parse(text)
        check_functions(name, tree, fault)
        check_lines(name, text, fault)
        if name.startswith("oracle/"):
            imported[name] = list(imports_of(name, tree))
    check_packages(imported, fault)
