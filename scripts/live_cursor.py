"""Where the cursor stands on a screen, told from its text and the keys that led there. Lines and columns begin at 0."""
import re

MOVES = {b"{LEFT}": -1, b"{RIGHT}": 1, b"{BIGLEFT}": -5, b"{BIGRIGHT}": 5}
FINISHING = (b"~", b"{UP}", b"{DOWN}", b"{PGUP}", b"{PGDN}")
LAST_COLUMN = 79
EDIT_LINE = 1
LETTERS_LINE, FIRST_ROW_LINE, LAST_ROW_LINE = 3, 4, 23


class Cursor:
    """The column in the edited line, and the column at which that begins behind its prompt."""

    def __init__(self):
        """Nothing is edited."""
        self.column, self.begin = 0, 0

    def place(self, earlier, page, key):
        """The line and column of the cursor on a page, which a key made of the earlier one; the first has none."""
        if page.mode == "MENU":
            self.begin = 0
            return EDIT_LINE, max(page.lines[EDIT_LINE].find("["), 0)
        if page.mode not in ("LABEL", "VALUE", "POINT", "EDIT") or earlier is None:
            self.begin = 0
            return pointer_place(page)
        self.begin = self.begin_of_line(earlier, page, key)
        if page.mode == "EDIT" == earlier.mode and is_same_question(earlier, page, self.begin, key):
            self.column = self.moved(earlier, page, key)
        else:
            self.column = self.end_of_line(earlier, page, key)
        return EDIT_LINE, self.column

    def begin_of_line(self, earlier, page, key):
        """The column at which the typed text begins: 0, or behind a prompt, which is one word and a space."""
        if page.mode in ("LABEL", "VALUE"):
            return 0
        is_asked = earlier.mode == "MENU" or earlier.mode == "READY" and key == b"{GOTO}"
        if is_asked or self.begin and not is_same_question(earlier, page, self.begin, key):
            return len(page.line.partition(" ")[0]) + 1
        return 0 if earlier.mode in ("READY", "LABEL", "VALUE") else self.begin

    def end_of_line(self, earlier, page, key):
        """The end of a line that is typed at its end; spaces there are told by the keys alone."""
        end = max(len(page.lines[EDIT_LINE].rstrip()), self.begin)
        is_same = earlier.mode == page.mode != "POINT" and is_same_question(earlier, page, self.begin, key)
        if key == b" " and page.mode != "POINT":
            end = max(end, (self.column if is_same else self.begin) + 1)
        elif is_same and key == b"{BS}":
            end = max(end, self.column - 1)
        elif is_same and earlier.line == page.line:
            end = max(end, self.column)
        return min(end, LAST_COLUMN)

    def moved(self, earlier, page, key):
        """The column in EDIT behind a key, as the line was shown before and is shown now."""
        before, line = earlier.lines[EDIT_LINE], page.lines[EDIT_LINE]
        end = max(len(line.rstrip()), self.begin)
        column = self.column
        if key in (b"{HOME}", b"{ESC}"):
            column = self.begin
        elif key == b"{END}":
            column = end
        elif key in MOVES:
            column = min(column + MOVES[key] + shift(before, line), max(end, column))
        elif key == b"{BS}":
            column -= 1 if before[:column - 1] == line[:column - 1] else 0
        elif len(key) == 1 and key != b"~" or key in (b"{~}", b"{{}", b"{}}"):
            column += 1
        return max(self.begin, min(column, LAST_COLUMN))


def is_same_question(earlier, page, begin, key):
    """Whether the line stands behind the prompt behind which it stood, or behind none: Enter alone, or a macro's key,
    leads to the next."""
    return key not in (b"~", b"") or earlier.lines[EDIT_LINE][:begin] == page.lines[EDIT_LINE][:begin]


def shift(before, line):
    """By how many columns, 5 at most, the line is shown further right than before; left is negative."""
    for many in range(6):
        if line[many:] == before[:len(before) - many]:
            return many
        if line[:len(line) - many] == before[many:]:
            return -many
    return 0


def is_refusal(earlier, page, key):
    """Whether a finished entry was refused and went to EDIT, or stayed there, with the cursor at its fault."""
    if earlier is None or page.mode != "EDIT" or key == b"{EDIT}":
        return False
    is_same = earlier.line == page.line
    if earlier.mode == "EDIT":
        return is_same and key in FINISHING
    return earlier.mode in ("LABEL", "VALUE") or earlier.mode == "POINT" and is_same


def inserted_at(before, line):
    """The column at which a line differs from what it was: where a byte was put in."""
    return next(at for at, byte in enumerate(line) if byte != before[at])


def pointer_place(page):
    """The pointer's cell: its row's line, below the letters of its column."""
    cell = re.match(r"([A-Z]+)(\d+)$", page.pointer)
    if not cell:
        return 0, 0
    letters, row = cell.groups()
    line = next((at for at in range(FIRST_ROW_LINE, LAST_ROW_LINE + 1) if page.lines[at][:4].strip() == row), 0)
    heads = page.lines[LETTERS_LINE]
    head = re.search(rf"(?<![A-Z]){letters}(?![A-Z])", heads) or re.search(letters, heads)
    return line, head.start() if head else 0
