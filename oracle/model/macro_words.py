"""The command words of macros."""
from . import evaluate
from .keys import fold, word_at
from .line import EntryLine
from .macro_cells import (APOSTROPHE, MacroFault, content_of_value, cut, is_protected, macro_text, past, shown_cell,
                          state_of, value_of)
from .outside import file_name
from .sheet import SheetFault

# a menu has so many items at most, and so many callers and loops are kept
MOST_ITEMS, MOST_FRAMES = 8, 31
MOST_PASSES = 50


def label(text):
    """A label that a word writes."""
    return ('label', APOSTROPHE, text)


class Command:
    """A command word that is carried out: its name and arguments, where it stands, and what it works on. Each word of
    WORDS answers ('wants',), ('stopped',), or nothing where the macro goes on; MacroFault, SheetFault and Failed stop
    it. Arguments are read in the order in which their faults come."""

    def __init__(self, engine, unit, sheet, scene, tally, shelf):
        self.engine, self.sheet, self.scene, self.tally, self.shelf = engine, sheet, scene, tally, shelf
        _, self.name, self.args, self.at, self.offset = unit

    def run(self):
        """Carries the word out, where it has as many arguments as it takes."""
        counts, serve = WORDS[self.name]
        if len(self.args) not in counts:
            raise MacroFault(4)
        return serve(self) or ('going',)

    # ------------------------------------------------------------ arguments

    def place(self, at):
        """An argument as a place."""
        return self.engine.place(self.args[at], self.sheet)

    def range(self, at):
        """An argument as a range."""
        return self.engine.range(self.args[at], self.sheet)

    def number(self, at):
        """An argument as a number."""
        return self.engine.number_arg(self.args[at], self.at, self.sheet, self.scene)

    def whole(self, at, least, most):
        """An argument as a whole number between two."""
        got = cut(self.number(at))
        if not least <= got <= most:
            raise MacroFault(4)
        return got

    def text(self, at):
        """An argument as a text."""
        return self.engine.let_text(self.args[at], self.at, self.sheet, self.scene)

    def value(self, at):
        """An argument as a value that LET puts."""
        return self.engine.let_value(self.args[at], self.at, self.sheet, self.scene)

    def put(self, *writes):
        """Writes, and the recalculation behind them."""
        self.engine.put(writes, self.sheet, self.scene, self.tally)

    # ------------------------------------------------------------ where the macro goes

    def branch(self):
        """BRANCH."""
        self.engine.go(self.place(0))

    def dispatch(self):
        """DISPATCH: to the place that a cell's text spells."""
        value = value_of(self.sheet, self.place(0))
        if value[0] != 'str':
            raise MacroFault(5)
        self.engine.go(self.engine.place(value[1], self.sheet))

    def call(self):
        """/XC."""
        self.engine.do_call(self.at, self.offset, self.place(0))

    def given_args(self):
        """DEFINE: the arguments of the present routine's call at that call's word as it now stands.
        This project's choice: a FOR's called cells belong to the routine that holds the FOR."""
        calls = [frame for frame in self.engine.frames if frame[0] == 'call']
        if not calls:
            raise MacroFault(4)
        _, cell, offset, _ = calls[-1]
        text = macro_text(self.sheet, cell)
        word = word_at(text, offset) if text is not None else None
        if word is None or word.kind != 'call' or self.sheet.names.find(word.name) is None:
            raise MacroFault(4)
        return word.args

    def define(self):
        """DEFINE; that another number of arguments is a wrong count is this project's choice."""
        given = self.given_args()
        if len(given) != len(self.args):
            raise MacroFault(4)
        self.put(*[self.defined(arg, text) for arg, text in zip(self.args, given)])

    def defined(self, arg, text):
        """What DEFINE writes for an argument: its text, or its value behind `:value`."""
        for ending in (b':VALUE', b':STRING'):
            if fold(arg).endswith(ending):
                cell = self.engine.place(arg[:-len(ending)], self.sheet)
                break
        else:
            ending, cell = b'', self.engine.place(arg, self.sheet)
        if ending != b':VALUE':
            return cell, label(text)
        return cell, content_of_value(self.engine.glance(text, self.at, self.sheet, self.scene))

    def returns(self):
        """RETURN."""
        return self.engine.do_return(self.sheet, self.scene, self.tally)

    def restart(self):
        """RESTART forgets the callers."""
        self.engine.frames = []

    def quit(self):
        """QUIT."""
        self.engine.stop()
        return ('stopped',)

    def if_true(self):
        """IF: where the condition isn't met the macro goes to the cell below."""
        value = self.engine.glance(self.args[0], self.at, self.sheet, self.scene)
        if not (value[0] == 'num' and value[1] != 0):
            self.engine.below(self.at[0], self.at[1] + 1)

    def loop(self):
        """FOR."""
        count, first, last, step, place = self.place(0), self.number(1), self.number(2), self.number(3), self.place(4)
        if step == 0:
            raise MacroFault(4)
        runs = not past(first, last, step)
        if runs and len(self.engine.frames) >= MOST_FRAMES:
            raise MacroFault(2)
        self.put((count, ('number', first)))
        if runs:
            self.engine.frames.append(('for', (self.engine.cell, self.engine.offset), count, last, step, place))
            self.engine.go(place)

    def break_loop(self):
        """FORBREAK: the innermost must be a loop."""
        if not self.engine.frames or self.engine.frames[-1][0] != 'for':
            raise MacroFault(4)
        self.engine.go(*self.engine.frames.pop()[1])

    def on_error(self):
        """ONERROR."""
        self.engine.onerror = (self.place(0), self.place(1) if len(self.args) == 2 else None)

    # ------------------------------------------------------------ cells

    def let(self):
        """LET."""
        cell = self.place(0)
        self.put((cell, content_of_value(self.value(1))))

    def put_into(self):
        """PUT: a column and a row of a range."""
        first, last = self.range(0)
        col, row = cut(self.number(1)), cut(self.number(2))
        if not (0 <= col <= last[0] - first[0] and 0 <= row <= last[1] - first[1]):
            raise MacroFault(4)
        self.put(((first[0] + col, first[1] + row), content_of_value(self.value(3))))

    def blank(self):
        """BLANK."""
        self.sheet.erase(self.range(0))
        if self.sheet.settings.automatic:
            self.sheet.calc(self.scene, self.tally)

    def contents(self):
        """CONTENTS: what a cell shows, in its width and format or in those that are given."""
        target, source = self.place(0), self.place(1)
        own, state = self.sheet.own_width(source[0]), state_of(self.sheet, source)
        width = own if own is not None else self.sheet.settings.width
        byte = state.format if state is not None else 0xFF
        if len(self.args) >= 3:
            width = self.whole(2, 1, 240)
        if len(self.args) == 4:
            byte = self.whole(3, 0, 255)
        self.put((target, label(shown_cell(self.sheet, source, width, byte))))

    def recalc(self):
        """RECALC and RECALCCOL: one pass, or so many until a condition is met."""
        span = self.range(0)
        until = self.engine.expr(self.args[1], self.at, self.sheet) if len(self.args) >= 2 else None
        passes = 1 if until is None else self.whole(2, 1, MOST_PASSES) if len(self.args) == 3 else MOST_PASSES
        for _ in range(passes):
            self.sheet.recalc_span(span, self.name == b'RECALCCOL', self.scene, self.tally)
            if until is not None:
                met = evaluate.glance(until, self.at, self.sheet, self.scene)
                if met[0] == 'num' and met[1] != 0:
                    break

    # ------------------------------------------------------------ what is waited for

    def get(self):
        """GET."""
        self.engine.target = self.place(0)
        self.engine.awaits = 'key'
        return ('wants',)

    def get_line(self):
        """GETLABEL and GETNUMBER."""
        engine = self.engine
        engine.prompt, engine.target = self.text(0), self.place(1)
        engine.number, engine.line, engine.word_cell = self.name == b'GETNUMBER', EntryLine(b''), self.at
        engine.awaits = 'line'
        return ('wants',)

    def look(self):
        """LOOK: no key is typed ahead, so it puts an empty label."""
        self.put((self.place(0), label(b'')))

    def menu(self):
        """MENUBRANCH and MENUCALL: the labels from a cell on are the items."""
        (col, row), number = self.place(0), 0
        while number < MOST_ITEMS and col + number <= 255:
            state = state_of(self.sheet, (col + number, row))
            if state is None or state.content[0] != 'label':
                break
            number += 1
        if number == 0:
            raise MacroFault(5)
        engine = self.engine
        engine.menu, engine.call_choice, engine.word = [(col, row), number,
                                                        0], self.name == b'MENUCALL', (self.at, self.offset)
        engine.awaits = 'choice'
        return ('wants',)

    def wait(self):
        """WAIT: its number is read at the word's first step and kept; a step before that moment does nothing, and the
        word stays."""
        engine = self.engine
        if engine.wait is None:
            engine.wait = self.number(0)
        until, now = engine.wait, engine.glance(b'@NOW', self.at, self.sheet, self.scene)
        if now[0] == 'num' and now[1] < until:
            engine.go(self.at, self.offset)
            engine.wait = until
        else:
            engine.wait = None

    def pass_keys(self):
        """`?`."""
        self.engine.awaits = 'passing'
        return ('wants',)

    # ------------------------------------------------------------ switches

    def nothing(self):
        """BEEP does nothing."""

    def indicate(self):
        """INDICATE."""
        self.engine.indicate = self.text(0) if self.args else b''

    def panel(self):
        """PANELON and PANELOFF."""
        self.engine.panel = self.name == b'PANELON'

    def windows(self):
        """WINDOWSON and WINDOWSOFF."""
        self.engine.windows = self.name == b'WINDOWSON'

    def breaks(self):
        """BREAKON and BREAKOFF."""
        self.engine.breaks = self.name == b'BREAKON'

    # ------------------------------------------------------------ text files

    def ended(self, answered):
        """A call that answered Ok, other than false or None, goes to the cell below."""
        if answered:
            self.engine.below(self.at[0], self.at[1] + 1)

    def put_answer(self, cell, call, content_of):
        """Puts what a call of the channel answers; a protected target is refused with message 5 before the channel is
        touched."""
        if is_protected(self.sheet, cell):
            raise SheetFault('Protected', cell)
        got = call()
        if got is not None:
            self.put((cell, content_of(got)))
            self.ended(True)

    def open(self):
        """OPEN."""
        name, access = self.text(0), fold(self.args[1])
        file = file_name(name, 'TXT') or file_name(name, 'PRN') if b'.' in name else file_name(name, 'TXT')
        if file is None or access not in (b'R', b'W', b'M'):
            raise MacroFault(4)
        self.ended(self.engine.channel.attach(file, access.decode(), self.shelf))

    def close(self):
        """CLOSE."""
        self.ended(self.engine.channel.finish(self.shelf))

    def read(self):
        """READ."""
        size, cell = cut(self.number(0)), self.place(1)
        if not 0 <= size <= 240:
            raise MacroFault(4)
        self.put_answer(cell, lambda: self.engine.channel.read(size), label)

    def read_line(self):
        """READLN."""
        self.put_answer(self.place(0), self.engine.channel.read_line, label)

    def write(self):
        """WRITE and WRITELN."""
        self.ended(self.engine.channel.write(self.text(0) + (b'\r\n' if self.name == b'WRITELN' else b'')))

    def tell(self):
        """FILESIZE and GETPOS."""
        channel = self.engine.channel
        self.put_answer(self.place(0), channel.size if self.name == b'FILESIZE' else channel.position,
                        lambda got: ('number', got * 1_000_000))

    def set_position(self):
        """SETPOS: a negative number is M4."""
        to = cut(self.number(0))
        if to < 0:
            raise MacroFault(4)
        self.ended(self.engine.channel.set_position(to))


# how many arguments each word takes, and what serves it
ANY = range(1, 241)
WORDS = {
    b'BRANCH': ((1,), Command.branch), b'DISPATCH': ((1,), Command.dispatch), b'/XC': ((1,), Command.call),
    b'DEFINE': (ANY, Command.define),
    b'RETURN': ((0,), Command.returns), b'RESTART': ((0,), Command.restart), b'QUIT': ((0,), Command.quit),
    b'IF': ((1,), Command.if_true),
    b'FOR': ((5,), Command.loop), b'FORBREAK': ((0,), Command.break_loop), b'ONERROR': ((1, 2), Command.on_error),
    b'LET': ((2,), Command.let),
    b'PUT': ((4,), Command.put_into), b'BLANK': ((1,), Command.blank), b'CONTENTS': ((2, 3, 4), Command.contents),
    b'RECALC': ((1, 2, 3), Command.recalc), b'RECALCCOL': ((1, 2, 3), Command.recalc), b'GET': ((1,), Command.get),
    b'GETLABEL': ((2,), Command.get_line), b'GETNUMBER': ((2,), Command.get_line), b'LOOK': ((1,), Command.look),
    b'MENUBRANCH': ((1,), Command.menu), b'MENUCALL': ((1,), Command.menu), b'WAIT': ((1,), Command.wait),
    b'?': ((0,), Command.pass_keys),
    b'BEEP': ((0,), Command.nothing), b'INDICATE': ((0, 1), Command.indicate), b'PANELON': ((0,), Command.panel),
    b'PANELOFF': ((0,), Command.panel), b'WINDOWSON': ((0,), Command.windows), b'WINDOWSOFF': ((0,), Command.windows),
    b'BREAKON': ((0,), Command.breaks), b'BREAKOFF': ((0,), Command.breaks), b'OPEN': ((2,), Command.open),
    b'CLOSE': ((0,), Command.close),
    b'READ': ((2,), Command.read), b'READLN': ((1,), Command.read_line), b'WRITE': ((1,), Command.write),
    b'WRITELN': ((1,), Command.write),
    b'FILESIZE': ((1,), Command.tell), b'GETPOS': ((1,), Command.tell), b'SETPOS': ((1,), Command.set_position),
}
