"""The store behind the words: the log at rest, the medium with the calls made on it, and which calls of the back go on.

A call on the medium is a tuple of its name and its numbers. A bundle is a tuple (first, last, writes)."""
from core_reference.views import HEADER, LINE, MARK, MAX_BUNDLE_WRITES, MAX_SPAN, PAGE, find, page_of, put_write

HEAD, CONTINUATION = 2**62, 2 * 2**62


class Sizes:
    """The sizes of an image without an index."""

    def __init__(self, subscribers, calls, rings, cells):
        self.rings, self.cells = rings, cells
        rows = 4 * subscribers
        tables = [(subscribers, 8), (subscribers, 4), (rows, 4), (rows, 4), (calls, 4)]
        words = sum(LINE + in_lines(records) + in_lines(records * size) for records, size in tables)
        self.pages = -(-words // PAGE)
        self.are_accepted = 1 <= subscribers <= 10_000 and 1 <= calls <= 120_000 and 1 <= rings <= 16

    def cell_start(self, ring, slot):
        return HEADER + (ring * self.cells + slot % self.cells) * LINE

    def home_word(self, at):
        return HEADER + self.rings * self.cells * LINE + at


def in_lines(words):
    return -(-words // LINE) * LINE


def cells_for(writes):
    return max(1, (len(writes) + 2) // 3)


def group_calls(writes, lines):
    """Words are put, their lines flushed, and a fence made."""
    return [("Put", at, value) for at, value in writes] + [("Flush", line) for line in lines] + [("Fence",)]


def encoded(bundle, k):
    """The eight words of a bundle's k-th cell."""
    first, last, writes = bundle
    words = [HEAD + last, len(writes) + 256 * (last - first)] if k == 0 else [CONTINUATION + last, k]
    for at, value in (writes + [(0, 0)] * 3)[3 * k : 3 * k + 3]:
        words += [at, value]
    return words


def append_calls(sizes, ring, slot, bundle):
    """The body is made durable, and then the tag of the head."""
    starts = [sizes.cell_start(ring, slot + k) for k in range(cells_for(bundle[2]))]
    words = [(start + j, word) for k, start in enumerate(starts) for j, word in enumerate(encoded(bundle, k))]
    body = group_calls(words[1:], [start // LINE for start in starts])
    return body + group_calls(words[:1], [starts[0] // LINE])


def reproduce_calls(sizes, writes, number):
    """The home words are made durable, and then the mark."""
    words = [(sizes.home_word(at), value) for at, value in writes]
    lines = sorted({at // LINE for at, _ in words})
    return group_calls(words, lines) + group_calls([(MARK, number)], [MARK // LINE])


def read_calls(sizes, page):
    return [("Read", sizes.home_word(page * PAGE + k)) for k in range(PAGE)]


class Ring:
    """The bundles of a ring, each with its last number and its cells, and the slot behind the last one."""

    def __init__(self):
        self.logged, self.next = [], 0

    def has_room(self, cells, count):
        return sum(used for _, used in self.logged) + count <= cells

    def is_under(self, number):
        return all(last < number for last, _ in self.logged)


class Store:
    def __init__(self, sizes, opening, first):
        self.sizes, self.reproduced, self.home = sizes, first, list(opening)
        self.rings, self.waiting = [Ring() for _ in range(sizes.rings)], []
        self.told, self.marks, self.read = [first], [first], []
        self.made, self.calls = [], []
        # The newest value of each word that was put.
        self.medium = {sizes.home_word(at): word for at, word in enumerate(opening)}

    def is_on_medium(self, number):
        return number <= self.reproduced or any(w[0] <= number <= w[1] for _, w in self.waiting)

    def leads(self):
        """The bundles that lead from the mark on, one behind another."""
        by_first = {bundle[0]: bundle for _, bundle in self.waiting}
        end, chain = self.reproduced, []
        while end + 1 in by_first:
            chain.append(by_first[end + 1])
            end = chain[-1][1]
        return chain

    # ---- the calls of the back that are allowed
    def persists(self, z, boxes, records):
        """By thread: the record with its least number, and with each record more that the next numbers have in boxes."""
        place_of = {number: k for k, number in enumerate(boxes) if number}
        for thread in range(z.threads):
            full = [number for number in boxes[z.box_of(thread, 0) : z.box_of(thread + 1, 0)] if number]
            if full and not self.is_on_medium(min(full)):
                yield from self.bundles(thread, records[place_of[min(full)]], place_of, records)

    def bundles(self, thread, record, place_of, records):
        ring = self.rings[thread]
        first = last = record[0]
        writes = record[1]
        while True:
            bundle = (first, last, writes)
            if ring.is_under(first) and ring.has_room(self.sizes.cells, cells_for(writes)):
                yield ("persisting", thread, bundle), append_calls(self.sizes, thread, ring.next, bundle)
            place = place_of.get(last + 1)
            if place is None or self.is_on_medium(last + 1) or last - first >= MAX_SPAN:
                return
            for at, value in records[place][1]:
                writes = put_write(writes, at, value)
            if len(writes) > MAX_BUNDLE_WRITES:
                return
            last += 1

    def announces(self):
        chain = self.leads()
        end = chain[-1][1] if chain else self.reproduced
        yield ("announcing", end), [("Tell", end)]

    def reproduces(self):
        """Up to each end that is at most a number told: the last write of each word, in rising order of word."""
        words = {}
        for _, last, writes in self.leads():
            words.update(writes)
            if last <= max(self.told):
                rising = sorted(words.items())
                yield ("reproducing", rising, last), reproduce_calls(self.sizes, rising, last)

    def reads(self):
        for page in range(self.sizes.pages):
            yield ("reading", page), read_calls(self.sizes, page)

    def candidates(self, z, boxes, records, call):
        """The calls of the back that begin with calls of this kind, with their whole lists."""
        kind = (self.calls + [call])[0][0]
        if kind == "Read":
            yield from self.reads()
        elif kind == "Tell":
            yield from self.announces()
        else:
            yield from self.persists(z, boxes, records)
            yield from self.reproduces()

    # ---- one call on the medium
    def make(self, z, boxes, records, call):
        """Makes the call where it is the next one of an allowed call of the back, and says whether it is."""
        made = self.calls + [call]
        for back, whole in self.candidates(z, boxes, records, call):
            if whole[: len(made)] == made:
                self.put_call(back, call)
                if len(whole) == len(made):
                    self.end(back)
                return True
        return False

    def put_call(self, back, call):
        if back[0] == "reading":
            at = back[1] * PAGE + len(self.calls)
            self.read = [(at, self.medium[self.sizes.home_word(at)])] + self.read
        if call[0] == "Put":
            self.medium[call[1]] = call[2]
        self.calls = self.calls + [call]
        self.made.append(call)

    def end(self, back):
        """What the whole call of the back leaves."""
        self.calls = []
        if back[0] == "persisting":
            _, thread, bundle = back
            ring, count = self.rings[thread], cells_for(bundle[2])
            ring.logged.append((bundle[1], count))
            ring.next = (ring.next + count) % self.sizes.cells
            self.waiting = self.waiting + [(thread, bundle)]
        elif back[0] == "announcing":
            self.told.append(back[1])
        elif back[0] == "reproducing":
            self.settle(back[1], back[2])

    def settle(self, writes, number):
        for at, value in writes:
            self.home[at] = value
        for ring in self.rings:
            ring.logged = [logged for logged in ring.logged if number < logged[0]]
        self.waiting = [(ring, w) for ring, w in self.waiting if number < w[1]]
        self.reproduced, self.marks = number, [number] + self.marks

    # ---- what was read
    def word_read(self, at):
        return find(self.read, at)

    def forget(self, page):
        self.read = [pair for pair in self.read if page_of(pair[0]) != page]
