"""Undo."""


def differs(a, b):
    """The map, widths, hidden columns, names, or settings other than the pointer."""
    return shape(a) != shape(b)


def shape(saved):
    """What of a sheet a command may change."""
    s = saved.settings
    settings = (s.automatic, s.passes, s.prefix, s.format, s.width, s.protection, s.order)
    cells = {c: (st.content, st.value, st.format) for c, st in saved.cells.items()}
    names = list(saved.names.items())
    return (cells, dict(saved.widths), set(saved.hidden), names, settings)


class Kept:
    """KeptState: the snapshot with the two marks."""

    def __init__(self, sheet):
        self.saved = sheet.snapshot()
        self.circular = sheet.circ
        self.stale = sheet.stale
        # names used by the ENGINE's put_back
        self.circ = self.circular


class History:
    """What the last commands found, of which each can be taken back once."""

    def __init__(self):
        self.list = []
        self.begun = None

    def begin(self, sheet):
        """A command begins."""
        self.begun = Kept(sheet)

    def has_begun(self):
        """Whether a command goes on."""
        return self.begun is not None

    def end(self, sheet):
        """A command ends; whether it changed something and is kept."""
        begun, self.begun = self.begun, None
        if not differs(begun.saved, sheet.snapshot()):
            return False
        self.list.append(begun)
        if len(self.list) > 20:              # past 20 the oldest is dropped
            del self.list[0]
        return True

    def undo(self, sheet):
        """Takes the last command back; false where there is none."""
        if not self.list:
            return False
        sheet.put_back(self.list.pop())
        return True

    def __len__(self):
        return len(self.list)
