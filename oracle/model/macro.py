"""The macro engine.  The text is read afresh at each unit."""
from . import address, evaluate, formula
from .channel import Channel
from .keys import ENTER, fold, get_text, word_at
from .macro_cells import (APOSTROPHE, ERR_CONTENT, LIMIT, MacroFault, content_of_value, cut, is_protected, macro_text,
                          past, state_of, value_of)
from .macro_words import Command
from .outside import Failed
from .sheet import SheetFault

# command words that are none as yet; `built.leave_out` sets it
NOT_BUILT = set()


class Engine:
    """The macro that runs, or none: its place, its callers and what it waits for."""

    def __init__(self):
        self.indicate = b''                  # INDICATE's text stays when a macro stops
        self.channel = Channel()             # one channel
        self.running = False
        self._reset()

    def _reset(self):
        """As it is while no macro runs."""
        self.cell = (0, 0)
        self.offset = 0
        self.reps = 0                        # repetitions already typed of the present word
        self.wait = None                     # the number that a present WAIT waits for
        self.frames = []
        self.onerror = None
        self.awaits = None                   # None, 'key', 'line', 'choice', 'passing'
        self.line = None
        self.prompt = b''
        self.menu = None                     # [first cell, count, highlight]
        self.target = None
        self.call_choice = False
        self.number = False
        self.panel = self.windows = self.breaks = True

    def start(self, letter, sheet):
        """M1 exactly where ALT's letter has no name."""
        span = sheet.names.find(b'\\' + fold(bytes([letter])))
        if span is None:
            return False
        self._reset()
        self.running = True
        self.cell = span[0]
        return True

    def stop(self):
        """The panel, the windows and BREAK are on again; ONERROR's place and the callers are forgotten."""
        self.running = False
        self._reset()

    def go(self, cell, offset=0):
        """Goes to a place."""
        self.cell, self.offset, self.reps, self.wait = cell, offset, 0, None

    def below(self, col, row):
        """IF, a choice or a file word past row 8192: offset 240 of that column's cell in row 8192."""
        if row > 8191:
            self.go((col, 8191), 240)
        else:
            self.go((col, row), 0)

    # ------------------------------------------------------------ the next unit
    def next(self, sheet, scene):
        """('key', key), ('command', name, args, cell, offset), ('call', ...), ('down',), ('return',),
        ('fault', number, cell)."""
        while True:
            text = macro_text(sheet, self.cell)
            if text is None:
                return ('return',)
            if self.offset >= len(text):
                if self.cell[1] == 8191:     # below row 8192 it is Return
                    return ('return',)
                self.go((self.cell[0], self.cell[1] + 1))
                return ('down',)
            w = word_at(text, self.offset)
            if w.kind == 'bad' or w.kind == 'command' and w.name in NOT_BUILT:
                return ('fault', 3, self.cell)
            if w.kind == 'key':
                self.go(self.cell, w.next)
                return ('key', w.key)
            if w.kind == 'repeat':
                unit = self.repeated(w, sheet, scene)
                if unit is None:
                    continue
                return unit
            if w.kind == 'call':
                if sheet.names.find(w.name) is None:
                    return ('fault', 3, self.cell)
                unit = ('call', w.name, w.args, self.cell, self.offset)
            else:
                unit = ('command', w.name, w.args, self.cell, self.offset)
            # WAIT keeps its number while it is the present word
            keep = self.wait
            self.go(self.cell, w.next)
            if w.kind == 'command' and w.name == b'WAIT':
                self.wait = keep
            return unit

    def repeated(self, w, sheet, scene):
        """The key of a word that repeats it, or none when that many were typed and the word is passed."""
        try:
            if len(w.args) != 1:
                raise MacroFault(4)
            n = cut(self.number_arg(w.args[0], self.cell, sheet, scene))
        except MacroFault as f:
            return ('fault', f.number, self.cell)
        if self.reps < n:
            self.reps += 1
            return ('key', w.key)
        self.go(self.cell, w.next)
        return None

    # ------------------------------------------------------------ arguments
    def expr(self, text, cell, sheet):
        """An argument as a formula."""
        try:
            return formula.read(text, cell, sheet.names)
        except formula.ParseFault:
            raise MacroFault(4)

    def glance(self, text, cell, sheet, scene):
        """The value of an argument."""
        return evaluate.glance(self.expr(text, cell, sheet), cell, sheet, scene)

    def number_arg(self, text, cell, sheet, scene):
        """The number of an argument."""
        v = self.glance(text, cell, sheet, scene)
        if v[0] != 'num':
            raise MacroFault(4)
        return v[1]

    def place(self, text, sheet):
        """A place is an address or a name, of which the first cell counts."""
        try:
            return address.read_cell(text)
        except address.NotAnAddress:
            pass
        span = sheet.names.find(text)
        if span is None:
            raise MacroFault(4)
        return span[0]

    def range(self, text, sheet):
        """An argument as a range, by corners or by name."""
        try:
            return address.read_span(text)
        except address.NotAnAddress:
            pass
        span = sheet.names.find(text)
        if span is None:
            raise MacroFault(4)
        return span

    def let_value(self, e, cell, sheet, scene):
        """LET p,e: an ending `:value` is dropped first; no formula, or an ending `:string`, gives a label."""
        if fold(e).endswith(b':VALUE'):
            e = e[:-6]
        if fold(e).endswith(b':STRING'):
            return ('str', e[:-7])
        try:
            f = formula.read(e, cell, sheet.names)
        except formula.ParseFault:
            return ('str', e)
        return evaluate.glance(f, cell, sheet, scene)

    def let_text(self, t, cell, sheet, scene):
        """A text as LET takes one; a value that is no text isn't of its kind: M4."""
        v = self.let_value(t, cell, sheet, scene)
        if v[0] != 'str':
            raise MacroFault(4)
        return v[1]

    def put(self, writes, sheet, scene, tally):
        """The writes of a word and, when Automatic, the recalculation in its step.  SheetFault for a protected cell."""
        sheet.write([(c, content, None) for c, content in writes])
        if sheet.settings.automatic:
            sheet.calc(scene, tally)

    # ------------------------------------------------------------ carrying out
    def apply(self, unit, sheet, scene, tally, shelf):
        """('going',), ('wants',), ('stopped',), ('error', number), ('fault', number, cell)."""
        kind = unit[0]
        if kind in ('key', 'down'):
            return ('going',)
        if kind == 'fault':
            self.stop()
            return unit
        if kind == 'return':
            try:
                return self.do_return(sheet, scene, tally)
            except SheetFault:
                return ('error', 5)
        at = unit[3]
        try:
            if kind == 'call':
                self.do_call(unit[3], unit[4], sheet.names.find(unit[1])[0])
                return ('going',)
            return Command(self, unit, sheet, scene, tally, shelf).run()
        except MacroFault as f:
            self.stop()
            return ('fault', f.number, at)
        except SheetFault:
            return ('error', 5)
        except Failed:
            return ('error', 8)              # DiskError is shown as message 8

    def do_call(self, word_cell, word_offset, target):
        """Calls a routine."""
        if len(self.frames) >= 31:           # M2 where a call would add a 32nd frame
            raise MacroFault(2)
        self.frames.append(('call', word_cell, word_offset, (self.cell, self.offset)))
        self.go(target)

    def do_return(self, sheet, scene, tally):
        """Back to the caller, on with its FOR, or the macro stops."""
        if not self.frames:
            self.stop()
            return ('stopped',)
        f = self.frames[-1]
        if f[0] == 'call':
            self.frames.pop()
            self.go(*f[3])
            return ('going',)
        _, on, k, b, s, p = f
        v = value_of(sheet, k)               # adds s as `+` does
        if v[0] == 'blank':
            v = ('num', 0)
        if v[0] == 'str':
            v = ('err',)
        if v[0] == 'num':
            total = v[1] + s
            v = ('num', total) if abs(total) <= LIMIT else ('err',)
        self.put([(k, content_of_value(v))], sheet, scene, tally)
        if v[0] != 'num' or past(v[1], b, s):
            self.frames.pop()
            self.go(*on)
        else:
            self.go(p)
        return ('going',)

    # ------------------------------------------------------------ waiting
    def answer(self, key, sheet, scene, tally):
        """A key for what the macro waits for."""
        taker = {'passing': self.answer_passing, 'key': self.answer_key, 'line': self.answer_line,
                 'choice': self.answer_choice}[self.awaits]
        try:
            return taker(key, sheet, scene, tally)
        except SheetFault:
            return ('error', 5)

    def answer_passing(self, key, _sheet, _scene, _tally):
        """`?` ends at Enter; other keys are handed on."""
        if key != ENTER:
            return ('wants',)
        self.awaits = None
        return ('going',)

    def answer_key(self, key, sheet, scene, tally):
        """GET puts the key's name."""
        self.awaits = None
        self.put([(self.target, ('label', APOSTROPHE, get_text(key)))], sheet, scene, tally)
        return ('going',)

    def answer_line(self, key, sheet, scene, tally):
        """GETLABEL and GETNUMBER take keys into their line until it is finished."""
        if key[0] in ('up', 'down', 'pgup', 'pgdn') or (key[0] == 'esc'
                                                        and not self.line.text) or self.line.key(key) != 'finished':
            return ('wants',)
        text = self.line.text
        self.awaits, self.line, self.prompt = None, None, b''
        content = self.number_content(text, sheet, scene) if self.number else ('label', APOSTROPHE, text)
        self.put([(self.target, content)], sheet, scene, tally)
        return ('going',)

    def number_content(self, text, sheet, scene):
        """What GETNUMBER puts: the value of what the line spells, or `@ERR` where that is no number."""
        try:
            value = evaluate.glance(formula.read(text, self.word_cell, sheet.names), self.word_cell, sheet, scene)
        except formula.ParseFault:
            return ERR_CONTENT
        return ('number', value[1]) if value[0] == 'num' else ERR_CONTENT

    def answer_choice(self, key, sheet, _scene, _tally):
        """A menu's highlight moves, or an item is chosen; ESC goes on."""
        if key[0] == 'esc':
            self.awaits, self.menu = None, None
            return ('going',)
        (first, row), number, high = self.menu
        moved = {'left': (high - 1) % number, 'right': (high + 1) % number, 'home': 0, 'end': number - 1}.get(key[0])
        if moved is not None:
            self.menu[2] = moved
        chosen = high if key[0] == 'enter' else self.item_by_letter(key[1], sheet) if key[0] == 'byte' else None
        if chosen is None:
            return ('wants',)
        self.awaits, self.menu = None, None
        if self.call_choice:
            if len(self.frames) >= 31:
                at = self.word[0]
                self.stop()
                return ('fault', 2, at)
            self.frames.append(('call', self.word[0], self.word[1], (self.cell, self.offset)))
        self.below(first + chosen, row + 2)
        return ('going',)

    def item_by_letter(self, byte, sheet):
        """The first item of the menu that begins with a byte, or none."""
        (first, row), number, _ = self.menu
        texts = (self.label_text(sheet, (first + at, row)) for at in range(number))
        return next((at for at, text in enumerate(texts) if text and fold(text[:1]) == fold(bytes([byte]))), None)

    def label_text(self, sheet, cell):
        """The text of a label, or nothing."""
        st = state_of(sheet, cell)
        return st.content[2] if st is not None and st.content[0] == 'label' else b''

    def catch_error(self, message, sheet, scene, tally):
        """A caught error.  Where no place is set it stops the macro."""
        if self.onerror is None:
            self.stop()
            return False
        p, q = self.onerror
        self.onerror = None
        self.awaits, self.line, self.prompt, self.menu = None, None, b'', None
        if q is not None and not is_protected(sheet, q):
            self.put([(q, ('label', APOSTROPHE, message))], sheet, scene, tally)
        self.go(p)
        return True
