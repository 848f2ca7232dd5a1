"""One number for all that a machine has: its words, its views, its store, and the calls made on the medium."""
from core_reference.views import MAX_RINGS

FACTOR, ROUND = 1_099_511_628_211, 2**64
WORDS = ("Threads", "Clock", "Turn", "Durable", "Reproduced", "Lock", "Entry", "Touch", "Cell", "Box")
CALLS = ("Read", "Put", "Flush", "Fence", "Tell")
# Of the requests of scripts, and of none: a kind with what the request names, and the kind of the reply.
ABOUTS = {
    "none": lambda index: [0, 0],
    "update": lambda index: [1, 1, index, 1],
    "request": lambda index: [2, index, 2],
}


class Sum:
    """A running sum of numbers, in their order."""

    def __init__(self):
        self.total = 0

    def add(self, *numbers):
        for number in numbers:
            self.total = (self.total * FACTOR + int(number)) % ROUND

    def add_maybe(self, number):
        self.add(*([0] if number is None else [1, number]))

    def add_pair(self, pair):
        self.add(*([0] if pair is None else [1, *pair]))

    def add_numbers(self, numbers):
        self.add(len(numbers), *numbers)

    def add_pairs(self, pairs):
        self.add(len(pairs), *(number for pair in pairs for number in pair))

    def add_call(self, call):
        self.add(CALLS.index(call[0]), *call[1:])


def add_view(total, v):
    total.add(v.is_spent)
    total.add_maybe(v.thread)
    total.add_numbers(v.ended)
    total.add(v.splits, v.draws)
    total.add_numbers(v.drawn)
    add_transaction(total, v.tx)
    total.add_pairs(v.kept)
    total.add_pairs(v.pins)
    total.add_numbers(v.touched)
    total.add(v.next_place, v.is_empty)
    add_turn(total, v.turn)
    total.add(len(v.entries))
    for entry in v.entries:
        add_entry(total, entry)
    add_found(total, v)


def add_transaction(total, x):
    total.add(x.is_open, x.snapshot)
    total.add_maybe(x.extension)
    total.add_pairs(x.reads)
    total.add_numbers(x.checked)
    total.add_pair(x.look)
    total.add_pair(x.loaded)
    total.add_pairs(x.owned)
    total.add(x.hand.number, x.hand.decided, x.hand.void)
    add_about(total, x.hand.about)
    total.add_pairs(x.hand.writes)
    total.add_numbers(x.hand.stored)


def add_turn(total, turn):
    total.add(turn.has_it, turn.count, turn.durable, turn.met_fault)
    total.add_pairs(turn.full)
    total.add_pairs(turn.touches)
    total.add_pairs(turn.filled)


def add_entry(total, entry):
    total.add(entry.number, entry.wrote)
    add_about(total, entry.about)
    total.add_pairs(entry.reads)
    total.add_pairs(entry.writes)


def add_about(total, about):
    total.add(0, about.index, *ABOUTS[about.kind](about.index))


def add_found(total, v):
    total.add(v.found is not None)
    if v.found is not None:
        (kind, at), number = v.found
        total.add(WORDS.index(kind), at, number)
    total.add(v.count)


def add_store(total, m):
    d = m.store
    total.add(d.reproduced)
    for at, word in enumerate(d.home):
        total.add(word)
        total.add_maybe(d.word_read(at))
    for ring in d.rings:
        total.add(ring.next, *(ring.has_room(d.sizes.cells, cells) for cells in range(d.sizes.cells + 1)))
    total.add(len(d.waiting))
    for ring, (first, last, writes) in d.waiting:
        total.add(ring, first, last)
        total.add_pairs(writes)
    for number in range(m.z.first, m.words["Clock"][0] + 1):
        total.add(number in d.told, number in d.marks, d.is_on_medium(number))
        total.add(*(ring.is_under(number) for ring in d.rings))


def add_calls(total, d):
    made = Sum()
    for call in d.made:
        made.add_call(call)
    total.add(made.total, len(d.calls))
    for call in d.calls:
        total.add_call(call)


def digest_of(m):
    """The digest of a machine."""
    total = Sum()
    for kind in WORDS:
        total.add(*m.words[kind])
    for v in m.views[:MAX_RINGS]:
        add_view(total, v)
    add_store(total, m)
    add_calls(total, m.store)
    return total.total
