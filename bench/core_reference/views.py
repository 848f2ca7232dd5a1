"""The setup of a machine, what its views keep, and the lists of keys with values that they are made of.

Lists of pairs have the newest pair first, as in the definitions; a list of writes is one of pairs (word, value)."""

LINE, PAGE, MARK, HEADER = 8, 64, 8, 16
MAX_WRITES, MAX_BUNDLE_WRITES, MAX_SPAN = 24, 96, 255
MAX_RINGS, MAX_LOCKS, MAX_BOXES, MIN_FRAMES = 16, 65_536, 64, 32
MAX_NUMBER, LAST_COUNT, ENTRY = 2**48 - 1, 2**64 - 1, 65_536


class Setup:
    """How many of each thing there are, the home words at the start, and the number then."""

    def __init__(self, threads, frames, locks, boxes, opening, first):
        self.threads, self.frames, self.locks, self.boxes = threads, frames, locks, boxes
        self.opening, self.first = opening, first
        self.pages = len(opening) // PAGE

    def is_within(self, rings):
        """Whether the sizes are within the limits, over an image with so many rings."""
        return (
            1 <= self.threads <= rings
            and min(MIN_FRAMES, self.pages) <= self.frames <= self.pages
            and 1 <= self.locks <= MAX_LOCKS
            and 1 <= self.boxes <= MAX_BOXES
        )

    def lock_of(self, at):
        return at % self.locks

    def box_of(self, thread, place):
        return thread * self.boxes + place


def page_of(at):
    return at // PAGE


def cell_of(frame, at):
    return frame * PAGE + at % PAGE


def entry_with(frame, pins):
    return (frame + 1) * ENTRY + pins


def frame_in(entry):
    return entry // ENTRY - 1


def without_pins(entry):
    return entry // ENTRY * ENTRY


def one_more(count):
    return min(count + 1, LAST_COUNT)


def find(pairs, key):
    """The value under a key; None where there is none."""
    for k, value in pairs:
        if k == key:
            return value
    return None


def without(pairs, key):
    return [pair for pair in pairs if pair[0] != key]


def put_write(writes, at, value):
    """The writes with one more, in place of that of the same word, or last."""
    if find(writes, at) is None:
        return writes + [(at, value)]
    return [(a, value if a == at else x) for a, x in writes]


class About:
    """What an entry is about: its place in file 0, and which of the script's requests it is."""

    def __init__(self, index=0, kind="none"):
        self.index, self.kind = index, kind


class Entry:
    """What a transaction leaves."""

    def __init__(self, number, wrote, about, reads, writes):
        self.number, self.wrote, self.about = number, wrote, about
        self.reads, self.writes = list(reads), list(writes)


class Hand:
    """The number that a view drew and hasn't posted; 0 is none."""

    def __init__(self, number=0, about=None, writes=()):
        self.number, self.decided, self.void = number, False, False
        self.about, self.writes, self.stored = about or About(), list(writes), []

    def is_undecided(self):
        return self.number > 0 and not self.decided and not self.void

    def record(self):
        """The record of the number: its writes, or none where it is void."""
        return (self.number, list(self.writes) if self.decided else [])


class Transaction:
    def __init__(self):
        self.is_open, self.snapshot, self.extension = False, 0, None
        self.reads, self.checked, self.look, self.loaded, self.owned = [], [], None, None, []
        self.hand = Hand()

    def drop(self):
        self.is_open, self.extension, self.reads, self.loaded = False, None, [], None

    def is_undrawn(self):
        return self.is_open and self.hand.number == 0

    def is_steady(self):
        return self.is_undrawn() and self.extension is None

    def looked_word(self):
        return 1 if self.look is None else self.look[1]


class Turn:
    def __init__(self, durable):
        self.has_it, self.count, self.durable, self.met_fault = False, 0, durable, False
        self.full, self.touches, self.filled = [], [], []

    def begin(self):
        self.has_it, self.count = True, one_more(self.count)
        self.full, self.touches, self.filled = [], [], []

    def replace(self, page):
        """The entry of the page was replaced: what is kept of it in the turn is dropped."""
        self.touches = without(self.touches, page)
        self.filled = [pair for pair in self.filled if page_of(pair[0]) != page]


class View:
    """What the thread with a seat at the table knows of its own steps."""

    def __init__(self, z, splits, draws, is_spent=False):
        self.is_spent, self.thread, self.ended, self.splits = is_spent, None, [], splits
        self.draws, self.drawn, self.tx = draws, [], Transaction()
        self.kept, self.pins, self.touched = [], [], []
        self.next_place, self.is_empty, self.turn = 0, False, Turn(z.first)
        self.entries, self.found, self.count = [], None, 0

    def notice(self, word, number):
        self.found, self.count = (word, number), one_more(self.count)

    def thread_number(self):
        return self.thread or 0

    def own_word(self):
        return 2 * self.thread_number() + 1

    def is_good(self, number):
        return number == self.own_word() or (number % 2 == 0 and number // 2 <= self.tx.snapshot)

    def looks_good(self, lock):
        return self.tx.look is not None and self.tx.look[0] == lock and self.is_good(self.tx.look[1])

    def looks_unowned(self, lock):
        look = self.tx.look
        return look is not None and look[0] == lock and look[1] % 2 == 0 and look[1] // 2 <= self.tx.snapshot

    def is_idle(self):
        return self.tx.hand.number == 0 and not self.tx.owned and not self.pins

    def owns(self, lock):
        return find(self.tx.owned, lock) is not None

    def has_pin(self, page):
        return find(self.pins, page) is not None

    def pinned_frame(self, page):
        return find(self.pins, page) or 0

    def kept_entry(self, page):
        return find(self.kept, page) or 0

    def next_box(self, z):
        return z.box_of(self.thread_number(), self.next_place)
