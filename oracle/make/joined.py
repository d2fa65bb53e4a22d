"""Cases that are typed one behind another in one stored run."""
from .runs import Run

# so many bytes of keys, or more, make a run
ENOUGH = 1500


class Joined:
    """The keys of a run, and the files of its folder."""

    def __init__(self):
        self.keys, self.folder, self.saves = b'', {}, 0

    def type(self, keys):
        """Adds keys."""
        self.keys += keys

    def put(self, held):
        """The name of a file that holds these bytes."""
        for name, other in self.folder.items():
            if other == held:
                return name[:-4].encode()
        name = b'F%d' % (len(self.folder) + 1)
        self.folder[name.decode() + '.WK1'] = held
        return name

    def save(self):
        """The sheet is saved in a file of its own, so that all of it is compared."""
        self.saves += 1
        self.type(b'{BREAK}/FSS%d~' % self.saves)

    def retrieve(self, name):
        """The sheet of a file, from any mode."""
        self.type(b'{BREAK}/FR' + name + b'~')

    def run(self, *options):
        """The run, with these words of the program and the count of evaluations."""
        return Run(['--count', *options], self.keys, self.folder)


def joined(cases):
    """Runs of cases, each of which is called with the run that it is typed in."""
    to = Joined()
    for case in cases:
        case(to)
        if len(to.keys) >= ENOUGH:
            yield to.run()
            to = Joined()
    if to.keys:
        yield to.run()
