"""The screen of 25 lines of 80.  Painted from nothing."""
from . import address, cellformat, dates
from .macro_cells import mask, shown_cell, state_of
from .menu import MENUS, items as items_of


def width_of(sheet, col):
    """The width of a column."""
    own = sheet.own_width(col)
    return own if own is not None else sheet.settings.width


def shown_columns(sheet, corner):
    """[(col, width)]: from the corner on, the columns that aren't hidden are shown while they fit whole in columns 4
    to 79; if the first of them doesn't fit it is cut."""
    out = []
    used = 0
    for col in range(corner, 256):
        if sheet.is_hidden(col):
            continue
        w = width_of(sheet, col)
        if used + w > 76:
            if not out:
                out.append((col, w))
            break
        out.append((col, w))
        used += w
    return out


def moved_corner(sheet, corner):
    """After each step the corner moves as little as is needed."""
    pc, pr = sheet.settings.pointer
    col, row = corner
    if pr < row:
        row = pr
    elif pr > row + 19:
        row = pr - 19
    if not sheet.is_hidden(pc):              # while the pointer's column is hidden it stays
        if pc < col:
            col = pc
        else:
            while col != pc:
                shown = shown_columns(sheet, col)
                whole = [c for c, w in shown if w <= 76]
                if pc in whole:
                    break
                col += 1
    return (col, row)


def centred(text, width):
    """A text in the middle of a width."""
    left = (width - len(text)) // 2 if width > len(text) else 0
    return (b' ' * left + text)[:width].ljust(width)


def cell_row(sheet, columns, row):
    """The cells of a row: labels and text values run on over blank cells to the right."""
    parts = [(col, w, state_of(sheet, (col, row))) for col, w in columns]
    i = 0
    pieces = []
    while i < len(parts):
        col, w, st = parts[i]
        long = long_text(sheet, (col, row), st, w)
        if long is None:
            byte = st.format if st is not None else 0xFF
            pieces.append(shown_cell(sheet, (col, row), w, byte))
            i += 1
            continue
        room = w
        j = i + 1
        while j < len(parts) and (parts[j][2] is None or parts[j][2].content[0] == 'blank') and room < len(long):
            room += parts[j][1]
            j += 1
        pieces.append(mask(long)[:room].ljust(room))
        i = j
    return b''.join(pieces)


def long_text(sheet, cell, st, width):
    """The bytes of a label or text value that stands at the left and is longer than its width, else None."""
    if st is None or st.content[0] == 'blank':
        return None
    return cellformat.runs_on(st.content, st.value, st.format, width, sheet.settings.format)


def indicator_text(byte):
    """What is told of a format."""
    return cellformat.indicator(byte)


def pointer_line(sheet, mode):
    """Line 0: the pointer's address, what is told of its cell, the content as it would be typed, and the mode."""
    p = sheet.settings.pointer
    st = state_of(sheet, p)
    byte = st.format if st is not None else 0xFF
    text = address.cell_text(p) + b': '
    ind = indicator_text(byte & 0x7F)
    if ind:
        text += ind + b' '
    if byte & 0x80 == 0:
        text += b'U '
    elif sheet.settings.protection:
        text += b'PR '
    own = sheet.own_width(p[0])
    if own is not None:
        text += b'[W%d] ' % own
    text += sheet.text_of(p)
    return text[:72].ljust(73) + mode.ljust(7)


def mode_text(session):
    """The mode that is told: a macro's text in its place, or what a macro waits for."""
    e = session.engine
    if e.indicate:
        return e.indicate[:5]
    if e.awaits == 'line':
        return b'EDIT'
    if e.awaits == 'choice':
        return b'MENU'
    return session.mode.encode()


def items_line(names, high):
    """The items with a space on each side, the highlighted one between `[` and `]` (in their place)."""
    return b''.join((b'[' + n + b']') if i == high else (b' ' + n + b' ') for i, n in enumerate(names))


def typed_line(prompt, text, cursor):
    """After its prompt and a space if there is one, from the byte that lets the cursor stand at column 79 at most."""
    if prompt:
        text = prompt + b' ' + text
        cursor += len(prompt) + 1
    start = max(0, cursor - 79)
    return text[start:start + 80]


def panel_lines(session):
    """Lines 1 and 2."""
    e = session.engine
    sheet = session.sheet
    if e.awaits == 'line':
        return typed_line(e.prompt, e.line.text, e.line.cursor), b''
    if e.awaits == 'choice':
        p, n, high = e.menu
        names = [e.label_text(sheet, (p[0] + i, p[1])) for i in range(n)]
        below = b''
        if p[1] < 8191:                      # a second row below row 8192 is shown blank
            st = state_of(sheet, (p[0] + high, p[1] + 1))
            if st is not None:
                if st.content[0] == 'label':
                    below = st.content[2]
                elif st.value[0] == 'str':
                    below = st.value[1]
        return items_line(names, high)[:240], below
    m = session.mode
    prompt = b''
    if session.question is not None and m in ('EDIT', 'POINT'):
        prompt = session.current_prompt()[0].encode()
    if m in ('LABEL', 'VALUE'):
        return typed_line(b'', session.line, len(session.line)), b''
    if m == 'EDIT':
        return typed_line(prompt, session.entry.text, session.entry.cursor), b''
    if m == 'POINT':
        text = session.put_in()              # the line with its reference as it would be put in
        return typed_line(prompt, text, len(text)), b''
    if m == 'MENU':
        items = session.items()
        names = [n.encode() for n, _ in items]
        nxt = items[session.high][1]
        below = b'  '.join(n.encode() for n, _ in items_of(nxt)) if nxt in MENUS else b''
        return items_line(names, session.high)[:240], below[:240]
    return b'', b''


def sheet_lines(sheet, corner):
    """Lines 3 to 23: the columns' letters and twenty rows."""
    columns = shown_columns(sheet, corner[0])
    lines = [b'    ' + b''.join(centred(address.col_text(c), w) for c, w in columns)]
    blank, with_cells = b' ' * sum(w for _, w in columns), {row for _, row in sheet.cells}
    for row in range(corner[1], corner[1] + 20):
        cells = cell_row(sheet, columns, row) if row in with_cells else blank
        lines.append(b'' if row > 8191 else str(row + 1).encode().rjust(4) + cells)
    return lines


def foot_line(sheet, message, moment, end_mark, running):
    """Line 24: the message in ERROR, or else the moment, and the indicators."""
    last = bytearray(b' ' * 80)

    def at(col, text):
        """Puts a text at a column."""
        last[col:col + len(text)] = text[:80 - col]

    if message is not None:
        at(0, mask(message)[:50])
    elif moment.day is not None:             # as 01-Jun-87 14:05
        at(0, dates.date1(moment.day) + b' %02d:%02d' % (moment.second // 3600, moment.second // 60 % 60))
    if sheet.stale and not sheet.settings.automatic:
        at(50, b'CALC')
    if sheet.circ:
        at(56, b'CIRC')
    if end_mark:
        at(62, b'END')
    if running:
        at(67, b'CMD')
    return bytes(last)


def filled(lines):
    """Lines as the screen shows them: 80 bytes each."""
    return [mask(line)[:80].ljust(80) for line in lines]


def paint(session):
    """The whole screen of a session."""
    sheet, e = session.sheet, session.engine
    lines = filled([pointer_line(sheet, mode_text(session)), *panel_lines(session),
                    *sheet_lines(sheet, session.corner)])
    if session.frozen_panel is not None:     # PANELOFF keeps lines 0 to 2 as they were
        lines[0:3] = session.frozen_panel
    if session.frozen_windows is not None:   # WINDOWSOFF keeps lines 3 to 23
        lines[3:24] = session.frozen_windows
    message = session.message if session.mode == 'ERROR' else None
    lines.append(foot_line(sheet, message, session.moment, session.end_mark, e.running))
    assert len(lines) == 25 and all(len(x) == 80 for x in lines)
    return lines
