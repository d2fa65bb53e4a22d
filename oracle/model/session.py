"""One step of the session: what a key or a macro's unit does in each mode."""
from . import address, dates, formula, fixed
from . import commands, menu, screen
from .commands import CommandError, Desk, set_settings, sheet_error
from .evaluate import Scene, Tally
from .keys import ENTER, BREAK, UNDO, fold
from .line import EntryLine
from .macro import Engine
from .menu import MENUS, PARENT, BACK, CHOICES, prompts
from .sheet import Sheet, SheetFault
from .undo import History

ARROWS = {'up': (0, -1), 'down': (0, 1), 'left': (-1, 0), 'right': (1, 0)}
MOVING = ('up', 'down', 'left', 'right', 'pgup', 'pgdn', 'bigleft', 'bigright', 'home')
PREFIXES = b"'\"^\\|"
VALUE_BEGINS = b'0123456789+-.(@#$'
OPERATORS = b'^*/+-=<>&#'    # the bytes that end an operator, `#` for #AND# and its kind
# keys that READY passes over: none, or those that the program has not built
NOT_BUILT = set()


class ErrorE(Exception):
    """An error E on the way to the part Error."""

    def __init__(self, number, message=None):
        self.number = number
        self.message = message if message is not None else commands.MESSAGES[number].encode()


class Quit(Exception):
    """The run ends."""

    pass


class Session:
    """What a run shows and takes keys in: its mode, what is typed, the macro that runs, and the desk."""

    def __init__(self, desk):
        self.desk = desk
        self.engine = Engine()
        self.history = History()
        self.moment = dates.Moment(None, 0)  # before the first step or load
        self.end_mark = False
        self.corner = (0, 0)
        self.frozen_panel = None
        self.frozen_windows = None
        self.tally = commands_tally()
        self.shown = None                    # the last screen
        self.ready()

    # ------------------------------------------------------------ modes
    def ready(self):
        """READY drops what belongs to the mode."""
        self.mode = 'READY'
        self.line = b''                      # the line of LABEL, VALUE and of POINT in an entry
        self.entry = None                    # the EntryLine of EDIT
        self.question = None                 # (action, answers): a prompt
        self.fresh = False                   # Save's shown name, before any byte
        self.point = None                    # [corner, anchor or None, dollars 0..3]
        self.path = None
        self.high = 0
        self.choice = None                   # 'replace' or 'confirm'
        self.message = b''

    @property
    def sheet(self):
        """The sheet of the desk."""
        return self.desk.sheet

    def scene(self):
        """What formulas ask for besides cells: the pointer and the moment."""
        return Scene(self.sheet.settings.pointer, self.moment)

    def wants_key(self):
        """Whether the next step takes a key: no macro runs, or it waits for one."""
        return not self.engine.running or self.engine.awaits is not None

    def evaluations(self):
        """How many evaluations there were."""
        return self.tally.count

    def load(self, now, shelf=None):
        """The recalculation after a retrieve, at the start."""
        self.moment = dates.Moment(*now)
        self.sheet.calc(self.scene(), self.tally)

    # ------------------------------------------------------------ the step
    def step(self, event, now, shelf):
        """event: ('key', key) or ('unit',).  'more' or 'quit'."""
        self.moment = dates.Moment(*now)     # a step reads the clock first
        self.shelf = shelf
        self.refused = None
        outside_ready = self.mode == 'READY' and not self.engine.running
        if outside_ready and not (event[0] == 'key' and event[1] == UNDO):
            self.history.begin(self.sheet)   # a command begins
        result = 'more'
        try:
            if event[0] == 'key':
                self.key_event(event[1])
            else:
                self.unit_event()
        except ErrorE as e:
            self.error(e)
        except Quit:
            result = 'quit'
            self.ready()
        if self.mode == 'READY' and not self.engine.running and self.history.has_begun():
            self.history.end(self.sheet)
        self.frame()
        return result

    def error(self, e):
        """The mode ERROR; inside a macro the place of ONERROR, once; where none is set it stops the macro."""
        self.ready()
        if self.engine.running and self.engine.catch_error(e.message, self.sheet, self.scene(), self.tally):
            return
        self.mode = 'ERROR'
        self.message = self.refused = e.message

    def macro_fault(self, number, cell):
        """The mode ERROR with a macro's fault."""
        self.ready()
        self.mode = 'ERROR'
        self.message = self.refused = b'Macro fault M%d at %s' % (number, address.cell_text(cell))

    def applied(self, r):
        """What a macro's unit, or a key for it, came to."""
        if r[0] == 'error':
            raise ErrorE(r[1])
        if r[0] == 'fault':
            self.macro_fault(r[1], r[2])

    def unit_event(self):
        """The next unit of the macro."""
        unit = self.engine.next(self.sheet, self.scene())
        if unit[0] == 'key':
            self.part_key(unit[1])
            return
        self.applied(self.engine.apply(unit, self.sheet, self.scene(), self.tally, self.shelf))

    def key_event(self, key):
        """A key that comes from outside."""
        if key == BREAK:
            self.end_mark = False
            # drops what is being typed and goes to READY
            self.ready()
            if self.engine.running and self.engine.breaks:
                self.engine.stop()           # unless BREAKOFF is in force
            return
        if self.engine.running:
            if key == UNDO:                  # in a macro the key is passed over
                self.end_mark = False
                return
            if self.engine.awaits == 'passing' and key != ENTER:
                self.part_key(key)
                return
            self.end_mark = False
            self.applied(self.engine.answer(key, self.sheet, self.scene(), self.tally))
            return
        self.part_key(key)

    def part_key(self, key):
        """A key, typed by hand or by a macro, is handed to the part of the mode."""
        mark = self.end_mark
        self.end_mark = False                # END's mark: the next key takes it away, a second END too
        getattr(self, 'in_' + self.mode.lower())(key, mark)

    # ------------------------------------------------------------ READY
    def in_ready(self, key, mark):
        """A key in READY; what isn't told here is passed over, and so are ALT and UNDO while a macro runs."""
        k = key[0]
        if k in NOT_BUILT:
            return
        if k == 'end':
            self.end_mark = not mark
        elif k in ARROWS and mark:
            self.end_arrow(ARROWS[k])
        elif k == 'home' and mark:
            last = self.sheet.last_used()
            self.set_pointer(last if last is not None else (0, 0))
        elif k in MOVING:
            self.move(k)
        elif k == 'edit':
            self.edit_cell()
        elif k == 'byte':
            self.begin_line(key[1])
        elif k == 'goto':
            self.question = ('goto', [])
            self.begin_prompt()
        elif k == 'calc':
            self.sheet.calc(self.scene(), self.tally)
        elif k == 'query':
            if self.desk.last_query is None:
                raise ErrorE(14)
            self.command(lambda: commands.run_query(self.desk.last_query, self.desk, self.scene(), self.tally))
        elif k == 'table':
            if self.desk.last_table is None:
                raise ErrorE(12)
            self.command(lambda: commands.table(self.desk.last_table, self.desk, self.scene(), self.tally))
        elif k == 'alt' and not self.engine.running:
            if not self.engine.start(key[1], self.sheet):
                self.macro_fault(1, self.sheet.settings.pointer)
        elif k == 'undo' and not self.engine.running and not self.history.undo(self.sheet):
            raise ErrorE(21)

    def begin_line(self, b):
        """A byte in READY opens the menu, or begins a line."""
        if b == ord('/'):
            self.mode, self.path, self.high = 'MENU', 'main', 0
        else:
            self.mode = 'VALUE' if b in VALUE_BEGINS else 'LABEL'
            self.line = bytes([b])

    def set_pointer(self, cell):
        """Puts the pointer on a cell."""
        set_settings(self.sheet, pointer=cell)

    def next_column(self, col, step):
        """The next column that isn't hidden; stands still where there is none."""
        c = col + step
        while 0 <= c <= 255:
            if not self.sheet.is_hidden(c):
                return c
            c += step
        return col

    def move(self, k):
        """A key that moves the pointer."""
        col, row = self.sheet.settings.pointer
        if k in ('left', 'right'):
            col = self.next_column(col, 1 if k == 'right' else -1)
        elif k == 'up':
            row = max(0, row - 1)
        elif k == 'down':
            row = min(8191, row + 1)
        elif k == 'pgup':
            row = max(0, row - 20)
        elif k == 'pgdn':
            row = min(8191, row + 20)
        elif k == 'home':
            col, row = 0, 0
        else:                                # as many LEFT or RIGHT as columns are shown, and at least one
            for _ in range(max(1, len(screen.shown_columns(self.sheet, self.corner[0])))):
                col = self.next_column(col, 1 if k == 'bigright' else -1)
        self.set_pointer((col, row))

    def filled(self, cell):
        """Whether a cell holds something."""
        st = self.sheet.cells.get(cell)
        return st is not None and st.content[0] != 'blank'

    def end_arrow(self, d):
        """END followed by an arrow."""
        col, row = self.sheet.settings.pointer

        def inside(c):
            """Whether a place is in the sheet."""
            return 0 <= c[0] <= 255 and 0 <= c[1] <= 8191

        here = (col, row)
        nxt = (col + d[0], row + d[1])
        if inside(nxt) and self.filled(here) and self.filled(nxt):
            while inside(nxt) and self.filled(nxt):          # the last filled cell of a filled run
                here, nxt = nxt, (nxt[0] + d[0], nxt[1] + d[1])
        else:
            while inside(nxt):
                here, nxt = nxt, (nxt[0] + d[0], nxt[1] + d[1])
                if self.filled(here):        # the next filled cell, else the edge
                    break
        self.set_pointer(here)

    def edit_cell(self):
        """The pointer's cell is edited; message 19 where its text is too long for a line."""
        text = self.sheet.text_of(self.sheet.settings.pointer)
        if len(text) > 240:
            raise ErrorE(19)
        self.mode = 'EDIT'
        self.entry = EntryLine(text)

    # ------------------------------------------------------------ LABEL and VALUE
    def in_label(self, key, mark):
        """A key in LABEL."""
        self.typing(key)

    def in_value(self, key, mark):
        """A key in VALUE; an arrow behind an operator begins to point."""
        k = key[0]
        if k in ARROWS and self.line[-1:] and self.line[-1] in OPERATORS + b'(,':
            self.mode = 'POINT'              # begins POINT instead
            self.point = [self.sheet.settings.pointer, None, 0]
            self.move_corner(k)
            return
        self.typing(key)

    def typing(self, key):
        """A key in a line that is typed."""
        k = key[0]
        if k == 'byte':
            if len(self.line) < 240:         # at 240 bytes it is passed over
                self.line += bytes([key[1]])
        elif k == 'bs':
            self.line = self.line[:-1]
            if not self.line:
                self.ready()
        elif k == 'esc':
            self.ready()
        elif k == 'edit':
            self.entry = EntryLine(self.line)
            self.line = b''
            self.mode = 'EDIT'
        elif key == ENTER or k in MOVING:
            self.finish(self.line, k)

    # ------------------------------------------------------------ Finish
    def content_of(self, line):
        """What a line means in a cell: the content, or ('fault', cursor)."""
        if line[0] in VALUE_BEGINS:
            v = fixed.read_decimal(line)
            if v == fixed.TOO_LARGE:         # the number is too large
                return ('fault', 0)
            if v != fixed.NOT_NUMBER:
                return ('number', v)
            try:
                return ('formula', formula.read(line, self.sheet.settings.pointer, self.sheet.names))
            except formula.ParseFault as f:
                return ('fault', len(line) if f.number in (2, 8) else f.at)
        if line[0] in PREFIXES:
            return ('label', line[0], line[1:])
        return ('label', self.sheet.settings.prefix, line)

    def finish(self, line, k):
        """A finished line that isn't empty; k is the key that finished it."""
        content = self.content_of(line)
        if content[0] == 'fault':            # leaves the cell and goes to EDIT; the key doesn't move
            self.ready()
            self.mode = 'EDIT'
            self.entry = EntryLine(line)
            self.entry.cursor = content[1]
            self.refused = b'refused at %d: %s' % (content[1], line)
            return
        try:
            self.sheet.enter_line(self.sheet.settings.pointer, content, self.scene(), self.tally)
        except SheetFault as f:
            raise ErrorE(sheet_error(f).number)
        if self.sheet.settings.automatic:    # recalculates before it moves
            self.sheet.calc(self.scene(), self.tally)
        self.ready()
        if k in MOVING:
            self.move(k)

    # ------------------------------------------------------------ EDIT
    def in_edit(self, key, mark):
        """A key in EDIT."""
        if self.question is not None:
            self.typed_answer(key)
            return
        what = self.entry.key(key)
        if what == 'givenup':
            self.ready()
        elif what == 'finished':
            line = self.entry.text
            k = key[0]
            if not line:                     # an empty line leaves the cell as it was
                self.ready()
                if k in MOVING:
                    self.move(k)
                return
            self.finish(line, k)

    # ------------------------------------------------------------ POINT
    def in_point(self, key, mark):
        """A key in POINT."""
        k = key[0]
        if k in ARROWS:
            self.move_corner(k)
        elif key == ('byte', ord('.')):
            if self.point[1] is None:        # anchors (nothing more where it is anchored)
                self.point[1] = self.point[0]
        elif k in ('esc', 'bs'):             # the anchor away and the corner back on the pointer
            self.point[1] = None
            self.point[0] = self.sheet.settings.pointer
        elif k == 'abs':
            self.point[2] = (self.point[2] + 1) % 4
        elif self.question is not None:
            if key == ENTER:
                c = self.point[0]
                a = self.point[1]
                line = address.cell_text(c) if a is None else address.cell_text(a) + b'..' + address.cell_text(c)
                self.answered(line)
            elif k == 'byte':                # any other byte begins a typed answer
                self.mode = 'EDIT'
                self.point = None
                self.entry = EntryLine(bytes([key[1]]))
            elif k == 'name':
                self.name_key(b'')
        else:
            if key == ENTER:
                line = self.put_in()
                self.point = None
                self.finish(line, k)
            elif k == 'byte' and key[1] in OPERATORS + b'),':
                self.line = self.put_in()
                if len(self.line) < 240:
                    self.line += bytes([key[1]])
                self.mode = 'VALUE'
                self.point = None

    def move_corner(self, k):
        """An arrow moves the corner that is pointed at."""
        (col, row), d = self.point[0], ARROWS[k]
        if d[0]:
            col = self.next_column(col, d[0])
        else:
            row = min(8191, max(0, row + d[1]))
        self.point[0] = (col, row)

    def pointed(self):
        """The pointed reference as it would be put in; an anchored one as two corners with two dots between them."""
        corner, anchor, dollars = self.point

        def text(c):                         # from A1 to $A$1, A$1, $A1 and back
            """A corner with its signs."""
            letters = address.col_text(c[0])
            number = str(c[1] + 1).encode()
            return [letters + number, b'$' + letters + b'$' + number, letters + b'$' + number,
                    b'$' + letters + number][dollars]

        return text(corner) if anchor is None else text(anchor) + b'..' + text(corner)

    def put_in(self):
        """Bytes of the reference past 240 on the line are passed over."""
        return (self.line + self.pointed())[:240]

    # ------------------------------------------------------------ MENU
    def items(self):
        """The items of the menu, or of the choice."""
        if self.choice is not None:
            return [(n, None) for n in CHOICES[self.choice]]
        return menu.items(self.path)

    def in_menu(self, key, mark):
        """A key in MENU."""
        items = self.items()
        k = key[0]
        chosen = None
        if k == 'left':                      # in a ring
            self.high = (self.high - 1) % len(items)
        elif k == 'right':
            self.high = (self.high + 1) % len(items)
        elif k == 'home':
            self.high = 0
        elif k == 'end':
            self.high = len(items) - 1
        elif k == 'enter':
            chosen = self.high
        elif k == 'byte':
            letters = [fold(name.encode()[:1]) for name, _ in items]
            letter = fold(bytes([key[1]]))
            chosen = letters.index(letter) if letter in letters else None
            if chosen is None:               # a letter that takes no item
                self.refused = b'no item ' + bytes([key[1]])
        elif k == 'esc':
            self.leave_menu()
        if chosen is not None:
            self.choose(items, chosen)

    def leave_menu(self):
        """ESC goes to the level above; a choice has none that is a menu."""
        if self.choice is not None or self.path == 'main':
            self.ready()
        else:
            self.path, self.high = PARENT[self.path], 0

    def choose(self, items, chosen):
        """An item is chosen: a menu opens, a prompt begins, or a choice is made."""
        if self.choice is not None:
            if chosen == 0:                  # No and Cancel do nothing and go to READY
                self.ready()
            else:
                self.choice = None
                self.perform()
            return
        nxt = items[chosen][1]
        if nxt in MENUS:
            self.path, self.high = nxt, 0
            return
        self.question = (nxt, [])
        self.path = None
        self.begin_prompt()

    # ------------------------------------------------------------ Prompt
    def current_prompt(self):
        """What is asked for now, or None."""
        action, answers = self.question
        asks = prompts(action)
        return asks[len(answers)] if len(answers) < len(asks) else None

    def begin_prompt(self):
        """The next prompt of the present action, or the action itself."""
        p = self.current_prompt()
        self.point = self.entry = None
        self.fresh = False
        if p is None:
            self.perform()
            return
        ask = p[1]
        pointer = self.sheet.settings.pointer
        if ask == 'R':                       # begins anchored at the pointer
            self.mode, self.point = 'POINT', [pointer, pointer, 0]
        elif ask == 'C':                     # without an anchor
            self.mode, self.point = 'POINT', [pointer, None, 0]
        elif ask in ('replace', 'confirm'):
            self.command_step(lambda: self.ask_choice(ask))
        else:
            self.mode = 'EDIT'
            text = b''
            if self.question[0] == 'f.save' and self.desk.file_name is not None:
                text = self.desk.file_name.encode()
                self.fresh = True
            self.entry = EntryLine(text)

    def ask_choice(self, ask):
        """Asks for a choice, where one is needed, or carries the command out."""
        action, answers = self.question
        if commands.needs_choice(action, answers, ask, self.shelf):
            self.mode, self.choice, self.high = 'MENU', ask, 0
        else:
            self.perform()

    def typed_answer(self, key):
        """A key in a typed answer."""
        k = key[0]
        if k in ('up', 'down', 'pgup', 'pgdn'):  # passed over
            return
        if k == 'name':
            self.name_key(self.entry.text)
            return
        if self.fresh and k == 'byte':       # the first byte typed begins a new answer in its place
            self.entry = EntryLine(b'')
            self.fresh = False
        what = self.entry.key(key)
        if what == 'givenup':
            self.ready()
        elif what == 'finished':
            self.answered(self.entry.text)

    def name_key(self, text):
        """NAME puts into a range or name answer the alphabetically first name after the text that stands there."""
        ask = self.current_prompt()[1]
        if ask not in ('R', 'C', 'T:name', 'T:old'):
            return
        name = self.sheet.names.after(text)
        if name is None:
            name = self.sheet.names.after(b'')
        if name is None:
            return
        self.mode = 'EDIT'
        self.point = None
        self.entry = EntryLine(name)

    def answered(self, line):
        """An answer is tested, and the next is asked for."""
        action, answers = self.question
        answers = answers + [line]
        try:
            commands.test_answer(action, answers, self.desk)
        except CommandError as e:            # a refused answer ends the command with its error
            raise ErrorE(e.number, e.message())
        self.question = (action, answers)
        self.begin_prompt()

    # ------------------------------------------------------------ Command
    def command_step(self, what):
        """A step of a command; its error is told."""
        try:
            what()
        except CommandError as e:
            raise ErrorE(e.number, e.message())

    def command(self, what):
        """A command on the sheet; its error is told."""
        try:
            what()
        except CommandError as e:
            raise ErrorE(e.number, e.message())
        except SheetFault as f:
            raise ErrorE(sheet_error(f).number)

    def perform(self):
        """The command that was asked for is carried out."""
        action, answers = self.question
        if action == 'goto':
            cell = commands.span_of(answers[0], self.desk)[0]
            self.ready()
            self.set_pointer(cell)
            return
        lines = list(answers)
        done = None

        def go():
            """Carries it out."""
            nonlocal done
            done = commands.act(action, lines, self.desk, self.shelf, self.scene(), self.tally)

        self.command(go)
        if done == 'quit':
            raise Quit()
        self.ready()
        if action in BACK:
            self.mode, self.path, self.high = 'MENU', BACK[action], 0

    # ------------------------------------------------------------ ERROR
    def in_error(self, key, mark):
        """A key in ERROR, which Enter and ESC leave."""
        if key == ENTER or key[0] == 'esc':
            self.ready()

    # ------------------------------------------------------------ Frame
    def frame(self):
        """The screen is painted anew, but for what stands still."""
        self.corner = screen.moved_corner(self.sheet, self.corner)
        before = self.shown
        if self.engine.panel:
            self.frozen_panel = None
        elif self.frozen_panel is None and before is not None:
            self.frozen_panel = before[0:3]
        if self.engine.windows:
            self.frozen_windows = None
        elif self.frozen_windows is None and before is not None:
            self.frozen_windows = before[3:24]
        self.shown = screen.paint(self)

    def grid(self):
        """The lines of the screen."""
        return self.shown if self.shown is not None else screen.paint(self)


def commands_tally():
    """A count of evaluations, at none."""
    return Tally()
