"""What a view does while it has the turn: it works on the log, brings pages back, and gives the turn away."""
from core_reference.views import PAGE, find, frame_in, page_of


class Turns:
    def __init__(self, schedule):
        self.s, self.rng, self.wanted = schedule, schedule.rng, None
        # What this turn is mostly about, and how many steps it has left.
        self.focus, self.left = self.on_log, 0
        # Where reproductions are few, rings get full.
        self.reproduces = self.rng.choice([0.05, 1, 1])

    def step(self, who, v):
        """A call of the back that is under way goes on; else the turn goes on with what it is about, or with something else."""
        if self.s.machine.store.calls:
            return self.go_on(who)
        self.left -= 1
        if self.left < 0:
            self.left = self.rng.choice([2, 5, 10, 20, 40])
            self.focus = self.rng.choice([self.on_log, self.on_log, self.on_boxes, self.on_boxes, self.on_pages])
            return self.s.make(who, ("GiveTurn",))
        works = [self.on_log, self.on_boxes, self.on_numbers, self.on_numbers]
        return (self.focus if self.rng.random() < 0.7 else self.rng.choice(works))(who, v)

    # ---- calls of the back
    def go_on(self, who):
        """The next call of the list that was begun, or of any that goes on with the calls made."""
        s = self.s
        d, made = s.machine.store, s.machine.store.calls
        lists = [whole for _, whole in d.candidates(s.z, s.machine.words["Box"], s.machine.records, made[0])]
        fitting = [whole for whole in lists if whole[: len(made)] == made]
        s.whole = self.rng.choice(fitting)[len(made) :]
        for _ in range(self.rng.choice([1, 2, 5, 20])):
            if s.whole:
                s.make(who, ("Device", s.whole.pop(0)))
        return True

    def begin(self, who, whole):
        """The first call alone is made."""
        return self.s.make(who, ("Device", whole[0]))

    def by_line(self, who, verb, rest, count):
        self.s.count += count
        self.s.command(f"{verb} view {who}: {rest}")

    def on_log(self, who, v):
        return self.rng.choice([self.persist, self.persist, self.tell, self.reproduce])(who)

    def persist(self, who):
        s = self.s
        found = list(s.machine.store.persists(s.z, s.machine.words["Box"], s.machine.records))
        if not found or self.rng.random() < 0.15:
            return self.persist_some(who)
        (_, ring, (first, last, _)), whole = self.rng.choice(found)
        if self.rng.random() < 0.4:
            return self.begin(who, whole)
        last += self.rng.random() < 0.05
        return self.by_line(who, "persists", f"ring {ring} numbers {first} to {last}", len(whole))

    def persist_some(self, who):
        """Some number in a box, or two, whether they may be persisted or not."""
        s = self.s
        full = [k for k, number in enumerate(s.machine.words["Box"]) if number]
        if not full:
            return self.tell(who)
        k = self.rng.choice(full)
        first = s.machine.words["Box"][k]
        last = first + self.rng.choice([0, 0, 1, 2])
        return self.by_line(who, "persists", f"ring {k // s.z.boxes} numbers {first} to {last}", 1)

    def tell(self, who):
        d = self.s.machine.store
        end = next(d.announces())[1][0][1]
        if end == d.told[-1] and self.rng.random() < 0.9:
            return self.reproduce(who)
        return self.by_line(who, "tells", f"number {end}", 1)

    def reproduce(self, who):
        found = list(self.s.machine.store.reproduces())
        if not found or self.rng.random() > self.reproduces:
            return None
        (_, _, number), whole = self.rng.choice(found)
        if self.rng.random() < 0.4:
            return self.begin(who, whole)
        return self.by_line(who, "reproduces", f"number {number}", len(whole))

    # ---- boxes and numbers
    def on_boxes(self, who, v):
        s = self.s
        boxes = s.machine.words["Box"]
        full = [k for k, number in enumerate(boxes) if number]
        done = [k for k in full if s.machine.store.is_on_medium(boxes[k])]
        k = self.rng.choice(done or full or range(len(boxes)))
        name = "EmptyBox" if done and self.rng.random() < 0.8 else "SeeFull"
        return s.make(who, (name, k // s.z.boxes, k % s.z.boxes))

    def on_numbers(self, who, v):
        m = self.s.machine
        if self.rng.random() < 0.5:
            return self.s.make(who, ("RaiseDurable", self.rng.choice(m.store.told[-3:])))
        return self.s.make(who, ("RaiseReproduced", self.rng.choice(m.store.marks[:2])))

    # ---- pages
    def on_pages(self, who, v):
        """A page that is absent comes back, or one is evicted."""
        entries = self.s.machine.words["Entry"]
        hot = sorted({page_of(at) for at in self.s.hot})
        absent = [page for page in hot if entries[page] == 0]
        if self.wanted in absent:
            absent = [self.wanted]
        if not absent or self.rng.random() < 0.1:
            return self.evict(who, v, self.rng.choice(hot))
        return self.fetch(who, v, absent[0] if self.rng.random() < 0.7 else self.rng.choice(absent))

    def evict(self, who, v, page):
        if find(v.kept, page) is None or self.rng.random() < 0.2:
            return self.s.make(who, ("Entry", page))
        return self.s.make(who, ("Evict", page))

    def fetch(self, who, v, page):
        """The next thing that brings the page back."""
        s = self.s
        if find(v.kept, page) != 0:
            return s.make(who, ("Entry", page))
        touch = find(v.turn.touches, page)
        if touch is None:
            return s.make(who, ("LoadTouch", page))
        if touch > s.machine.words["Reproduced"][0] and self.rng.random() < 0.7:
            return self.on_numbers(who, v) if self.rng.random() < 0.5 else self.on_log(who, v)
        used = {frame_in(entry) for entry in s.machine.words["Entry"] if entry}
        free = sorted(set(range(s.z.frames)) - used)
        if not free:
            pages = [p for p, entry in enumerate(s.machine.words["Entry"]) if entry]
            return self.evict(who, v, self.rng.choice([p for p, _ in v.kept if p in pages][:1] or pages))
        return self.fill(who, v, page, free)

    def fill(self, who, v, page, free):
        """The page is read, filled word by word, and shown."""
        s, d = self.s, self.s.machine.store
        begun = [frame for frame in free if (page * PAGE, frame) in v.turn.filled]
        frame = self.rng.choice(begun if begun and self.rng.random() < 0.8 else free)
        left = [at for at in range(page * PAGE, page * PAGE + PAGE) if (at, frame) not in v.turn.filled]
        if not left or (len(left) == 1 and self.rng.random() < 0.5):
            return s.make(who, ("Show", page, frame))
        if d.word_read(left[0]) is None:
            if self.rng.random() < 0.3:
                return self.begin(who, [("Read", s.script.sizes.home_word(page * PAGE))])
            return self.by_line(who, "reads", f"page {page}", PAGE)
        last = self.rng.choice([left[-1], max(left[0], left[-1] - 1), self.rng.choice(left)])
        first = self.rng.choice([left[0], left[0], left[0], last])
        return self.by_line(who, "fills", f"page {page} frame {frame} words {first} to {last}", last + 1 - first)
