"""What of the rules the program has built."""
from . import macro, menu, session

# What the program has not built as yet; a word goes when it is built. The menus don't show these paths and no letter
# takes them, these keys are passed over, and these words are none in a macro.
NOT_IN_MENUS = set()
NOT_IN_KEYS = set()
NOT_IN_MACROS = set()


def leave_out():
    """From here on the oracle knows no more than the program has built."""
    menu.NOT_BUILT, session.NOT_BUILT, macro.NOT_BUILT = NOT_IN_MENUS, NOT_IN_KEYS, NOT_IN_MACROS
