"""Texts.  A text is Python bytes, each 32..255, at most 240."""

MAX = 240  # the most bytes of a label's text, a text value, an entry line


class TextFault(Exception):
    """kind 'TooLong' or 'BadByte' (payload: the place)."""

    def __init__(self, kind, at=None):
        super().__init__(kind, at)
        self.kind = kind
        self.at = at


def check(data):
    """TooLong exactly past 240; otherwise BadByte(first byte below 32)."""
    if len(data) > MAX:
        raise TextFault('TooLong')
    for at, byte in enumerate(data):
        if byte < 32:
            raise TextFault('BadByte', at)
    return bytes(data)


def is_text(data):
    """Whether bytes are a text."""
    try:
        check(data)
    except TextFault:
        return False
    return True


def fold_byte(byte):
    """Folding maps a to z onto A to Z."""
    return byte - 32 if 97 <= byte <= 122 else byte


def fold(data):
    """A text in capitals."""
    return bytes(fold_byte(b) for b in data)


def fold_cmp(a, b):
    """-1, 0 or 1 by folded bytes."""
    fa, fb = fold(a), fold(b)
    return (fa > fb) - (fa < fb)


def is_letter(byte):
    """Whether a byte is one of the 52 letters."""
    return 65 <= byte <= 90 or 97 <= byte <= 122


def is_digit(byte):
    """Whether a byte is a digit."""
    return 48 <= byte <= 57


def upper(data):
    """A text in capitals."""
    return fold(data)


def lower(data):
    """A text in small letters."""
    return bytes(b + 32 if 65 <= b <= 90 else b for b in data)


def proper(data):
    """Raises each letter that follows no letter and lowers the others."""
    out = bytearray()
    before = False
    for b in data:
        if is_letter(b):
            out += lower(bytes([b])) if before else upper(bytes([b]))
            before = True
        else:
            out.append(b)
            before = False
    return bytes(out)


def trim(data):
    """Drops spaces at both ends and leaves one between words."""
    return b' '.join(word for word in data.split(b' ') if word)


def find(data, what, start):
    """The first place at or after `start` at which `what` stands, exact case, or None.
    The empty text stands at each place 0..len (this project's choice)."""
    for place in range(start, len(data) - len(what) + 1):
        if data[place:place + len(what)] == what:
            return place
    return None
