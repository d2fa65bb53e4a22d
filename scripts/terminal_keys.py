"""What a terminal sends, as words of key notation."""

ESCAPE = 27
END_OF_KEYS = 4                # Ctrl-D
PASSED_OVER = b""
# the typed bytes that key notation spells otherwise
SPELLED = {b"\r": b"~", b"\n": b"~", b"~": b"{~}", b"{": b"{{}", b"}": b"{}}", b"\x7f": b"{BS}", b"\x08": b"{BS}",
           b"\t": b"{BIGRIGHT}", b"\x03": b"{BREAK}", b"\x1c": b"{BREAK}"}
# what stands behind ESC [ or ESC O: a letter alone, or a number before a letter or ~
LETTERS = {b"A": b"{UP}", b"B": b"{DOWN}", b"C": b"{RIGHT}", b"D": b"{LEFT}", b"H": b"{HOME}", b"F": b"{END}",
           b"Q": b"{EDIT}", b"R": b"{NAME}", b"S": b"{ABS}", b"Z": b"{BIGLEFT}"}
NUMBERS = {b"1": b"{HOME}", b"3": b"{DEL}", b"4": b"{END}", b"5": b"{PGUP}", b"6": b"{PGDN}", b"7": b"{HOME}",
           b"8": b"{END}", b"12": b"{EDIT}", b"13": b"{NAME}", b"14": b"{ABS}", b"15": b"{GOTO}", b"17": b"{WINDOW}",
           b"18": b"{QUERY}", b"19": b"{TABLE}", b"20": b"{CALC}", b"21": b"{GRAPH}"}
# a Linux console's F2 to F5, behind ESC [ [
CONSOLE = {b"B": b"{EDIT}", b"C": b"{NAME}", b"D": b"{ABS}", b"E": b"{GOTO}"}
WITH_CONTROL = {b"C": b"{BIGRIGHT}", b"D": b"{BIGLEFT}"}
CONTROL = (b"5", b"6", b"7", b"8")


def sequence_end(data):
    """How many bytes the sequence has that begins with ESC [ or ESC O; 0 where its end has not come."""
    if data[1:2] == b"O":
        return 3 if len(data) > 2 else 0
    if data[2:3] == b"[":
        return 4 if len(data) > 3 else 0
    for at in range(2, len(data)):
        if 64 <= data[at] <= 126:
            return at + 1
    return 0


def sequence_word(sequence):
    """The key of a whole sequence; nothing where it is none of 1-2-3's."""
    last, inside = sequence[-1:], sequence[2:-1]
    if inside == b"[":
        return CONSOLE.get(last, PASSED_OVER)
    number, _, held = inside.partition(b";")
    if last == b"~":
        return NUMBERS.get(number, PASSED_OVER)
    if held in CONTROL and last in WITH_CONTROL:
        return WITH_CONTROL[last]
    return LETTERS.get(last, PASSED_OVER) if number in (b"", b"1") else PASSED_OVER


def first_key(data, is_all):
    """The key word of the first key in what came, and how many bytes it has; None and 0 where more must come.

    `is_all` says that nothing followed for a while, so that ESC is the key ESC and no sequence begins."""
    if data[0] != ESCAPE:
        byte = data[:1]
        if byte in SPELLED:
            return SPELLED[byte], 1
        return (byte if 32 <= data[0] <= 126 else PASSED_OVER), 1
    if len(data) == 1:
        return (b"{ESC}", 1) if is_all else (None, 0)
    if data[1:2] in (b"[", b"O"):
        end = sequence_end(data)
        if end:
            return sequence_word(data[:end]), end
        if not is_all:
            return None, 0
        if data[1:2] == b"[":
            return b"{ESC}", 1
    if data[1:2].isalpha():
        return b"{ALT " + data[1:2].upper() + b"}", 2
    return b"{ESC}", 1
