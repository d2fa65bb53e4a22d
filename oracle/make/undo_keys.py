"""Key lists with UNDO between their keys: often where a command, an entry or a macro may have ended, and seldom
anywhere."""
import re

# what a byte, a key in braces, or a brace that is typed is in key notation
KEY = re.compile(rb'\{\{\}|\{\}\}|\{[^{}]*\}|.', re.DOTALL)
ENDING = re.compile(rb'~|\n|\{(break|esc( \d+)?|calc|table|query|alt .|up|down|left|right|home)\}$',
                    re.IGNORECASE)
# by the last byte of a menu's path: a command without a prompt may be carried out there
TAKEN = b'gyrceudaGYRCEUDA'
UNDOS = [*[b'{UNDO}'] * 20, b'{undo}', b'{UNDO}{UNDO}', b'{UNDO}' * 3, b'{BREAK}{UNDO}', b'{ESC}{UNDO}',
         b'{ESC 3}{UNDO}', b'{UNDO}{CALC}', b'{UNDO}{RIGHT}{LEFT}', b'{UNDO}~{UNDO}', b'{BREAK}{UNDO}{UNDO}{CALC}',
         b'{UNDO}{UNDO}5~{UNDO}', b'{UNDO}' * 22]


def often(key):
    """How seldom UNDO stands behind a key: behind one in so many."""
    if ENDING.match(key):
        return 14
    return 40 if key in (b'%c' % byte for byte in TAKEN) else 250


def with_undos(r, keys):
    """The keys with UNDO between them."""
    out = []
    for found in KEY.finditer(keys):
        out.append(found[0])
        if r.randrange(often(found[0])) == 0:
            out.append(r.choice(UNDOS))
    return b''.join(out)
