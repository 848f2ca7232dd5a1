"""The machine of running transactions with its medium: its state at the start, and its steps."""
from core_reference.events import AFTER, BECOMES, WORD, may
from core_reference.store import Store
from core_reference.views import MAX_NUMBER, PAGE, View, entry_with, find, frame_in, without_pins

NO_RECORD = (0, [])


class Machine:
    """Words, views and records in boxes, and the store behind them; where there is no store, the machine without a medium."""

    def __init__(self, z, sizes):
        self.z, self.store = z, Store(sizes, z.opening, z.first) if sizes else None
        self.words = {
            "Threads": [0], "Clock": [z.first], "Turn": [0], "Durable": [z.first], "Reproduced": [z.first],
            "Lock": [2 * z.first] * z.locks,
            "Entry": [entry_with(page, 0) if page < z.frames else 0 for page in range(z.pages)],
            "Touch": [z.first] * z.pages,
            "Cell": list(z.opening[: z.frames * PAGE]),
            "Box": [0] * (z.threads * z.boxes),
        }  # fmt: skip
        self.records = [NO_RECORD] * (z.threads * z.boxes)
        self.views = [View(z, z.threads - 1, MAX_NUMBER - z.first)]

    def view(self, who):
        return self.views[who] if who < len(self.views) else None

    def found(self, kind, at=0):
        words = self.words[kind]
        return words[at] if at < len(words) else None

    def make(self, who, event):
        """Makes the event by the view, where it is allowed, and says whether it is."""
        v, name = self.view(who), event[0]
        if v is None:
            return False
        if name == "Split":
            return self.split(v, event[1])
        if name == "Join":
            return self.join(who, event[1])
        if name == "Device":
            return self.call(v, event[1])
        if not may(self.z, v, event) or not self.meets(v, event):
            return False
        self.step(v, event)
        return True

    # ---- views are split and joined
    def split(self, v, draws):
        if v.is_spent or v.splits == 0 or v.draws < draws:
            return False
        v.splits, v.draws = v.splits - 1, v.draws - draws
        self.views.append(View(self.z, 0, draws))
        return True

    def join(self, who, other):
        v, w = self.view(who), self.view(other)
        if v.is_spent or other == who or w is None or w.is_spent or not w.is_idle() or w.turn.has_it:
            return False
        v.ended = v.ended + ([] if w.thread is None else [w.thread]) + w.ended
        v.splits += w.splits + (1 if w.thread is None else 0)
        v.draws += w.draws
        v.turn.durable = max(v.turn.durable, w.turn.durable)
        v.turn.met_fault = v.turn.met_fault or w.turn.met_fault
        v.entries += w.entries
        self.views[other] = View(self.z, 0, 0, is_spent=True)
        return True

    # ---- calls on the medium
    def call(self, v, call):
        if v.is_spent or v.thread is None or not v.turn.has_it:
            return False
        return self.store.make(self.z, self.words["Box"], self.records, call)

    # ---- events on words
    def is_free(self, frame):
        """No entry names the frame."""
        return all(entry == 0 or frame_in(entry) != frame for entry in self.words["Entry"])

    def meets(self, v, event):
        """What the event asks of words and store, beside what its view allows."""
        name, names = event[0], event[1:]
        d = self.store
        if name == "GiveTurn":
            return d is None or not d.calls
        if name == "EmptyBox":
            number = self.words["Box"][self.z.box_of(*names)]
            return number > 0 and (d is None or d.is_on_medium(number))
        if name == "RaiseDurable":
            return self.may_rise("Durable", names[0], d and d.told)
        if name == "RaiseReproduced":
            return self.may_rise("Reproduced", names[0], d and d.marks)
        if name == "Fill":
            return self.may_fill(v, *names)
        return True

    def may_rise(self, kind, value, numbers):
        """The number doesn't fall. It is one of these; without a medium it is one that was drawn."""
        is_one = value <= self.words["Clock"][0] if numbers is None else value in numbers
        return self.words[kind][0] <= value and is_one

    def may_fill(self, v, page, frame, at):
        touch = find(v.turn.touches, page)
        return (
            self.is_free(frame)
            and (touch is None or touch <= self.words["Reproduced"][0])
            and self.store.word_read(at) is not None
        )

    def step(self, v, event):
        """The word becomes, and the records, the store and the view are, as after the event."""
        name, names = event[0], event[1:]
        kind, at = WORD[name](self.z, v, *names)
        n = self.words[kind][at]
        value = n
        if name == "Fill":
            value = self.store.word_read(names[2])
        elif name in BECOMES:
            value = BECOMES[name](self.z, v, n, *names)
        self.words[kind][at] = value
        self.move_record(v, name, at)
        if self.store is not None:
            self.forget_read(v, name, n, *names)
        AFTER[name](self.z, v, n, *names)
        if name in ("Entry", "Pin", "Unpin", "Evict", "Show"):
            assert value == 0 or value % 65_536 <= self.z.threads

    def move_record(self, v, name, at):
        if name == "Post":
            self.records[at] = v.tx.hand.record()
        elif name == "EmptyBox":
            self.records[at] = NO_RECORD

    def forget_read(self, v, name, n, *names):
        """What was read is dropped where a turn begins, where the reproduced number rises, and of a page whose entry changes."""
        if name == "RaiseReproduced" or (name == "TakeTurn" and n == 0):
            self.store.read = []
        elif name == "Show" or (name == "Evict" and n == without_pins(v.kept_entry(names[0]))):
            self.store.forget(names[0])
