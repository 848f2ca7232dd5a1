"""The two histories of steps on a table that threads share: each step with what its word has to hold.

None stands where that isn't compared."""
from core_reference.events import WORD
from core_reference.machine import Machine
from core_reference.views import PAGE, Setup

# Each step is one of the first view, as an event and the number in its word before it.
PINNED = [(("Begin",), 0), (("Entry", 0), 65_536), (("Pin", 0), 65_536)]
LOOKED = PINNED + [(("Look", 0), 0)]
READ = [(("Load", 3), 0), (("Check", 0), 0), (("Unpin", 0), 65_537), (("Finish", 0), 2)]
OWNED = [(("Take", 0), 0), (("Draw", 1, [(3, 7)]), 0), (("Decide",), 1)]
POSTED = [(("Store", 3), None), (("Touch", 0), None), (("Release", 0), None), (("Unpin", 0), 65_537), (("Post",), None)]
EMPTIED = [(("TakeTurn",), 0), (("SeeFull", 0, 0), 1), (("EmptyBox", 0, 0), None), (("SeeBox",), 0)]
SETTLED = [(("RaiseDurable", 1), None), (("RaiseReproduced", 1), None), (("GiveTurn",), None)]
AGAIN = [
    (("Begin",), 1), (("Entry", 0), 65_536), (("Pin", 0), 65_536), (("Look", 0), 2), (("Load", 3), 7), (("Check", 0), 2),
]  # fmt: skip
WRITE = LOOKED + READ + [(("SeeBox",), 0)] + LOOKED + OWNED + POSTED + EMPTIED + SETTLED
GIVE = [
    (("Begin",), 0), (("Extend",), 0), (("Look", 0), 0), (("Take", 0), 0), (("Restore", 0), None), (("Finish", 0), 1),
]  # fmt: skip
DROP = [(("TakeTurn",), 0), (("Entry", 0), 65_536), (("Evict", 0), 65_536), (("LoadTouch", 0), 0), (("GiveTurn",), None)]


def follow_history(name):
    """Whether each word is found as expected, in a machine without a medium."""
    m = Machine(Setup(2, 1, 1, 1, [0] * PAGE, 0), None)
    if name == "write":
        opened = m.make(0, ("Split", 0)) and m.make(0, ("Number",)) and m.make(1, ("Number",))
        whole = opened and all_found(m, WRITE) and m.make(0, ("Join", 1)) and all_found(m, AGAIN)
    elif name == "drop":
        whole = m.make(0, ("Number",)) and all_found(m, GIVE + DROP)
    else:
        return "no command"
    return "as expected" if whole else "not as expected"


def all_found(m, steps):
    for event, wanted in steps:
        kind, at = WORD[event[0]](m.z, m.views[0], *event[1:])
        if wanted not in (None, m.words[kind][at]) or not m.make(0, event):
            return False
    return True
