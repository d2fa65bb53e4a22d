"""Range names."""

from .address import NotAnAddress, read_cell, read_span
from .text import fold, is_digit, is_letter


class NameFault(Exception):
    """kind 'Empty', 'TooLong', 'BadByte' (payload the place) or 'Absent'."""

    def __init__(self, kind, at=None):
        super().__init__(kind, at)
        self.kind = kind
        self.at = at
        self.payload = at


def check(name):
    """A name is 1 to 15 bytes of 32 to 255 and doesn't begin with a space (BadByte(0)).
    Refusals in the order of the variants."""
    if len(name) == 0:
        raise NameFault('Empty')
    if len(name) > 15:
        raise NameFault('TooLong')
    for at, b in enumerate(name):
        if b < 32 or (at == 0 and b == 32):
            raise NameFault('BadByte', at)
    return fold(name)


def is_plain(name):
    """Begins with a letter, holds letters, digits and _ alone and is no address."""
    if not name or not is_letter(name[0]):
        return False
    if not all(is_letter(b) or is_digit(b) or b == 0x5F for b in name):
        return False
    try:
        read_cell(name)
    except NotAnAddress:
        return True
    return False


class Names:
    """The names of spans, folded."""

    def __init__(self):
        self.map = {}

    def create(self, name, span):
        """Names a span, also where the name stood for another."""
        self.map[check(name)] = span

    def delete(self, name):
        """Takes a name away, which must be there."""
        folded = check(name)
        if folded not in self.map:
            raise NameFault('Absent')
        del self.map[folded]

    def reset(self):
        """Takes all away."""
        self.map.clear()

    def find(self, name):
        """The span of a name, or None."""
        return self.map.get(fold(name))

    def of_span(self, span):
        """The first plain name in byte order."""
        for name in sorted(self.map):
            if self.map[name] == span and is_plain(name):
                return name
        return None

    def after(self, name):
        """The first name after the given text, or None."""
        folded = fold(name)
        later = [n for n in self.map if n > folded]
        return min(later) if later else None

    def items(self):
        """Names and spans in the names' order."""
        return [(n, self.map[n]) for n in sorted(self.map)]

    def copy(self):
        """Names of their own."""
        other = Names()
        other.map = dict(self.map)
        return other

    def __eq__(self, other):
        return isinstance(other, Names) and self.map == other.map

    def __repr__(self):
        return 'Names(%r)' % (self.map,)


def names_of(pairs):
    """Names of spans that are spelled."""
    names = Names()
    for name, span in pairs:
        names.create(name, read_span(span.encode()))
    return names
