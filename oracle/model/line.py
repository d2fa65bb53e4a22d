"""A line while it is edited: what each key of EDIT does."""


class EntryLine:
    """A line and the place of its cursor."""

    def __init__(self, text=b''):
        assert len(text) <= 240
        self.text = bytes(text)
        self.cursor = len(self.text)

    def key(self, key):
        """'going', 'finished', 'givenup' or 'full'."""
        k = key[0]
        t, c = self.text, self.cursor
        if k == 'left':                      # LEFT and RIGHT move the cursor by one
            self.cursor = max(0, c - 1)
        elif k == 'right':
            self.cursor = min(len(t), c + 1)
        elif k == 'bigleft':                 # by five
            self.cursor = max(0, c - 5)
        elif k == 'bigright':
            self.cursor = min(len(t), c + 5)
        elif k == 'home':
            self.cursor = 0
        elif k == 'end':
            self.cursor = len(t)
        elif k == 'byte':
            if len(t) >= 240:
                return 'full'
            self.text = t[:c] + bytes([key[1]]) + t[c:]
            self.cursor = c + 1
        elif k == 'del':
            self.text = t[:c] + t[c + 1:]
        elif k == 'bs':
            if c > 0:
                self.text = t[:c - 1] + t[c:]
                self.cursor = c - 1
        elif k == 'esc':                     # empties the line; on an empty line given up
            if not t:
                return 'givenup'
            self.text = b''
            self.cursor = 0
        elif k in ('enter', 'up', 'down', 'pgup', 'pgdn'):
            return 'finished'
        return 'going'
