"""Events that a view may just not make: of every kind, about what the view has at hand, whether that is allowed or not."""
from core_reference.views import MAX_NUMBER, PAGE, page_of

NAMES = (
    "Number Begin Extend Look Load Check Finish Take Draw Decide Store Release Restore SeeBox Post TakeTurn GiveTurn FailTurn "
    "SeeFull EmptyBox RaiseDurable RaiseReproduced Entry Pin Unpin Touch LoadTouch Evict Fill Show Join Split Device"
).split()
OF_LOCK = "Look Check Take Release Restore".split()
OF_WORD = "Load Store".split()
OF_PAGE = "Entry Pin Unpin Touch LoadTouch Evict".split()
OF_BOX = "SeeFull EmptyBox".split()
# What is wrong, or just right, while an extension is open, or before a post.
EXTENDING = "Look Load Take Draw Draw Finish Check".split()
NUMBERED = "Decide Store Store Release Release Restore Touch Unpin Unpin Post Check Draw".split()
TURNING = "Device Device Pin EmptyBox RaiseDurable RaiseReproduced LoadTouch Evict Fill Show".split()
# What ends a transaction or a view is tried less.
SELDOM = "Begin SeeBox Finish TakeTurn GiveTurn Evict".split()


class Aims:
    """Draws such events for a schedule."""

    def __init__(self, schedule):
        self.s, self.rng = schedule, schedule.rng

    def some(self, wanted, others):
        """One of what is wanted, or, seldom or where nothing is, one of the others."""
        wanted = list(wanted)
        return self.rng.choice(wanted if wanted and self.rng.random() < 0.9 else list(others))

    def event(self, who, v):
        name = self.rng.choice(self.names(v))
        if name in SELDOM and self.rng.random() < 0.8:
            name = self.rng.choice(self.names(v))
        if name in OF_LOCK:
            return (name, self.lock(v))
        if name in OF_WORD:
            return (name, self.word(v))
        if name in OF_PAGE:
            return (name, self.page(v))
        if name in OF_BOX:
            return (name, *self.box())
        return self.of_others(name, who, v)

    def names(self, v):
        """Names that fit what the view is in, or all."""
        if self.rng.random() < 0.3:
            return NAMES
        if v.turn.has_it:
            return TURNING
        if v.tx.hand.number:
            return NUMBERED
        return EXTENDING if v.tx.extension is not None else NAMES

    def of_others(self, name, who, v):
        if name in ("RaiseDurable", "RaiseReproduced"):
            return (name, self.number(name))
        if name == "Finish":
            return (name, self.rng.randrange(100))
        aims = {"Draw": self.draw, "Fill": self.fill, "Show": self.show, "Split": self.split, "Device": self.call}
        if name == "Join":
            return self.join(who)
        return aims[name](v) if name in aims else (name,)

    # ---- what the view has at hand
    def lock(self, v):
        z, x = self.s.z, v.tx
        near = [lock for lock, _ in x.owned] + [z.lock_of(at) for at, _ in x.reads]
        near += [x.look[0]] if x.look else []
        near += [z.lock_of(x.loaded[0])] if x.loaded else []
        return self.some(near, range(z.locks + 1))

    def words(self, v):
        """Written words, and words on pinned pages, of which some have an owned or the last lock."""
        z, x = self.s.z, v.tx
        last = [at for at in self.s.hot if x.look and z.lock_of(at) == x.look[0]]
        held = [at for at in self.s.hot if v.has_pin(page_of(at)) or v.owns(z.lock_of(at))]
        return last + [at for at, _ in x.hand.writes] + held

    def word(self, v):
        return self.some(self.words(v), range(self.s.z.pages * PAGE + 1))

    def page(self, v):
        near = [page for page, _ in v.pins + v.kept[:5] + v.turn.touches] + [page_of(at) for at, _ in v.tx.hand.writes]
        return self.some(near, range(self.s.z.pages + 1))

    def box(self):
        boxes, z = self.s.machine.words["Box"], self.s.z
        k = self.some([k for k, number in enumerate(boxes) if number], range(len(boxes) + 1))
        return k // z.boxes, k % z.boxes

    def number(self, name):
        """A number that was told or settled, or one between two of them."""
        d = self.s.machine.store
        numbers = d.told if name == "RaiseDurable" else d.marks
        near = self.rng.choice(numbers[:3] + numbers[-3:] + [max(d.told), max(d.marks)])
        return max(0, near + self.rng.choice([0, 0, -1, -2, 1]))

    def draw(self, v):
        """Writes of which each word may lack its lock or its page, by a view that may lack a box or a draw."""
        near = sorted(set(self.words(v)))
        good = [at for at in near if v.owns(self.s.z.lock_of(at)) and v.has_pin(page_of(at))]
        places = self.rng.sample(good, min(len(good), 2))
        if near and self.rng.random() < 0.5:
            places += [at for at in [self.rng.choice(near)] if at not in places]
        return ("Draw", self.rng.randrange(100), [(at, 9) for at in places])

    def filled(self, v):
        """A page and a frame of words that were filled, or of others."""
        z = self.s.z
        near = [(page_of(at), frame) for at, frame in v.turn.filled[:1] + v.turn.filled[-1:]]
        near += [(page, self.rng.randrange(z.frames)) for page, _ in v.turn.touches + v.kept[:3]]
        return self.some(near, [(self.rng.randrange(z.pages + 1), self.rng.randrange(z.frames + 1))])

    def fill(self, v):
        page, frame = self.filled(v)
        read = [at for at, _ in self.s.machine.store.read[:70]]
        at = self.some(read, range(page * PAGE, page * PAGE + PAGE + 1))
        return ("Fill", page_of(at) if self.rng.random() < 0.7 else page, frame, at)

    def show(self, v):
        return ("Show", *self.filled(v))

    def split(self, v):
        return ("Split", self.some([v.draws + 1, MAX_NUMBER], [2**48]))

    def join(self, who):
        """A view that isn't to be joined: the own one, a spent one, or one that has something."""
        views = self.s.machine.views
        busy = [k for k, w in enumerate(views) if k == who or w.is_spent or not w.is_idle() or w.turn.has_it]
        return ("Join", self.some(busy, [len(views)]))

    def call(self, v):
        """One of the calls that a call of the back would begin with or go on with, or the one behind it."""
        s = self.s
        d, boxes = s.machine.store, s.machine.words["Box"]
        lists = [whole for kind in ("Put", "Tell", "Read") for _, whole in d.candidates(s.z, boxes, s.machine.records, (kind,))]
        at = len(d.calls) + self.rng.choice([0, 1, -1])
        calls = [whole[at] for whole in lists if 0 <= at < len(whole)]
        return ("Device", self.some(calls[:6] + calls[-2:], [("Fence",)]))
