"""Random scripts: events of all views, of which most are allowed by the model and some are not.

Each view follows a plan of words that its transaction reads and writes; the one with the turn also works on the log and on pages.
What a view wishes is worked out from the model, which then says whether it is allowed. One event in six or so is about what the
view has at hand, whether that is allowed or not, and a few are drawn blindly."""
import random

from core_reference.aims import Aims
from core_reference.script import Script
from core_reference.turns import Turns
from core_reference.views import PAGE, page_of

BLIND, AIMED, LINE_END = 0.03, 0.15, 110
KINDS = {
    "plain": "Begin Extend Decide SeeBox Post TakeTurn GiveTurn FailTurn".split(),
    "lock": "Look Check Take Release Restore".split(),
    "word": "Load Store".split(),
    "page": "Entry Pin Unpin Touch LoadTouch Evict".split(),
    "box": "SeeFull EmptyBox".split(),
    "number": "RaiseDurable RaiseReproduced Tell".split(),
    "other": "Number Finish Draw Fill Show Read Put Flush Fence Join Split".split(),
}


def text_of(event):
    """The event as a script has it."""
    name, names = event[0], event[1:]
    if name == "Device":
        return " ".join(map(str, names[0]))
    if name == "Draw":
        return f"Draw {names[0]} writes" + "".join(f" {at}={value}" for at, value in names[1])
    labels = {"SeeFull": "thread place", "EmptyBox": "thread place", "Fill": "page frame word", "Show": "page frame"}
    if name in labels:
        return " ".join([name] + [f"{label} {number}" for label, number in zip(labels[name].split(), names)])
    return " ".join(map(str, event))


class Schedule:
    """A script that grows, and the model on which it is carried out."""

    def __init__(self, seed, events):
        self.rng, self.events = random.Random(seed), events
        self.script, self.count, self.index, self.last = Script(lambda text: None), 0, 0, 0
        self.group, self.plans, self.whole = None, {}, []
        self.open(seed)
        self.turns, self.aims = Turns(self), Aims(self)

    def open(self, seed):
        """Sizes: up to four threads, few rings, few or many locks, and often fewer frames than pages."""
        rng = self.rng
        threads = seed % 4 + 1
        rings = rng.randint(threads, max(threads, 4))
        subscribers, calls = rng.choice([(1, 1), (2, 9), (30, 240), (40, 480)])
        self.command(f"database subscribers {subscribers} calls {calls} words {rng.choice([0, 1000, 2**40])} rings {rings}")
        pages = self.script.sizes.pages
        frames = rng.choice([min(32, pages), min(pages, 40), pages])
        locks, boxes = rng.choice([1, 2, 3, 5, 17, 1024]), rng.choice([1, 2, 3, 4, 8])
        first = rng.choice([0, 3, 1000, 2**47])
        self.command(f"machine threads {threads} frames {frames} locks {locks} boxes {boxes} number {first}")
        self.machine = self.script.machine
        self.z = self.machine.z
        hot = sorted({0, pages - 1, *(rng.randrange(pages) for _ in range(4))})
        self.hot = [page * PAGE + rng.choice([0, 1, 2, 3, 63, rng.randrange(PAGE)]) for page in hot for _ in range(4)]

    # ---- lines
    def command(self, line):
        """Prints a line, and carries it out."""
        self.flush()
        print(line)
        self.script.take_line(line)

    def flush(self):
        if self.group is not None:
            who, made, texts = self.group
            print(f"{'view' if made else 'off view'} {who}: " + "; ".join(texts))
            self.group = None

    def make(self, who, event):
        """Makes the event on the model, and puts it into a line of events that came out the same."""
        made, text = self.machine.make(who, event), text_of(event)
        self.count += 1
        if self.group and self.group[:2] == (who, made) and sum(map(len, self.group[2])) + len(text) < LINE_END:
            self.group[2].append(text)
        else:
            self.flush()
            self.group = (who, made, [text])
        return made

    def live(self):
        return [who for who, v in enumerate(self.machine.views) if not v.is_spent]

    # ---- one event
    def step(self):
        rng, m = self.rng, self.machine
        if rng.random() < BLIND:
            return self.make(rng.choice(self.live() + [len(m.views)]), self.blind())
        who = self.next_view()
        v = m.views[who]
        if v.thread is None:
            other = rng.choice(self.live())
            return self.make(who, ("Number",)) if rng.random() < 0.8 else self.make(other, ("Join", who))
        is_between = v.tx.extension is not None or v.tx.hand.number > 0 or v.turn.has_it
        if rng.random() < (2 * AIMED if is_between else AIMED):
            return self.make(who, self.aims.event(who, v))
        if v.splits and len(m.views) < 16 and rng.random() < 0.1:
            return self.make(who, ("Split", rng.choice([0, 20, 10**6, 10**6, 10**6])))
        if self.count > 0.7 * self.events and len(self.live()) > 1 and rng.random() < 0.005:
            return self.make(who, ("Join", rng.choice(self.live())))
        if v.turn.has_it and rng.random() < 0.9:
            return self.turns.step(who, v)
        return self.make(who, self.wish(who, v))

    def next_view(self):
        """Often the one that made the last event; one with an undecided number waits a while."""
        views = self.machine.views
        v = views[self.last]
        waits = v.tx.hand.is_undecided() and v.tx.reads
        if v.is_spent or self.rng.random() < (0.9 if waits else 0.4):
            ready = [who for who in self.live() if not (views[who].tx.hand.is_undecided() and views[who].tx.reads)]
            self.last = self.rng.choice(ready if ready and self.rng.random() < 0.8 else self.live())
        return self.last

    def wish(self, who, v):
        """What the view does next with its transaction."""
        if v.tx.hand.number:
            return self.of_number(v)
        if not v.tx.is_open:
            return self.before(who, v)
        if v.tx.extension is not None:
            if v.tx.owned and self.rng.random() < 0.15:
                return ("Draw", 0, self.writes(v))
            left = [at for at, _ in v.tx.reads if self.z.lock_of(at) not in v.tx.checked]
            return ("Check", self.z.lock_of(self.rng.choice(left))) if self.rng.random() < 0.95 else ("Extend",)
        if v.tx.loaded is not None and self.rng.random() < 0.95:
            return ("Check", self.z.lock_of(v.tx.loaded[0] + (self.rng.random() < 0.05)))
        return self.of_plan(who, v)

    def before(self, who, v):
        """A box is seen, or the turn is taken where none is empty; then a transaction begins."""
        may_turn = not v.pins and not v.turn.has_it
        is_full = not v.is_empty and v.found is not None and v.found[0][0] == "Box"
        if may_turn and self.rng.random() < (0.6 if is_full else 0.05):
            return ("TakeTurn",)
        if not v.is_empty and self.rng.random() < (0.3 if is_full else 0.95):
            return ("SeeBox",)
        count, part = self.rng.choice([1, 2, 2, 3, 4]), self.rng.choice([0, 0.5, 0.8, 1] if v.is_empty else [0, 0, 0, 0, 1])
        entries = self.machine.words["Entry"]
        hot = self.hot if self.rng.random() < 0.5 else self.hot[:6]
        places = [at for at in hot if entries[page_of(at)] or self.rng.random() < 0.02]
        self.plans[who] = [(at, self.rng.random() < part) for at in self.rng.sample(places, min(count, len(places)))]
        contested = [at for w in self.machine.views if w.tx.hand.is_undecided() for at, _ in w.tx.reads]
        if contested and v.is_empty and self.rng.random() < 0.6:
            self.plans[who] = [(self.rng.choice(contested), True)]
        return ("Begin",)

    def of_plan(self, who, v):
        """The first word of the plan that isn't read, or whose lock isn't owned, is worked on."""
        if v.tx.reads and self.rng.random() < 0.05:
            return ("Extend",)
        if v.tx.look and v.tx.look[1] == v.own_word() and self.rng.random() < 0.2:
            return ("Take", v.tx.look[0])
        for at, is_written in self.plans.get(who, []):
            lock = self.z.lock_of(at)
            is_done = v.owns(lock) if is_written else any(at == word for word, _ in v.tx.reads)
            if not v.has_pin(page_of(at)):
                return self.of_page(who, v, page_of(at))
            if not is_done:
                return self.of_lock(who, v, at, lock, is_written)
        return self.of_end(who, v)

    def of_page(self, who, v, page):
        if v.turn.has_it:
            return self.give_up(who, v)
        if v.kept_entry(page) and self.rng.random() < 0.9:
            return ("Pin", page)
        if dict(v.kept).get(page) is None or self.rng.random() < 0.3:
            return ("Entry", page)
        self.turns.wanted = page
        return self.give_up(who, v)

    def of_lock(self, who, v, at, lock, is_written):
        look = v.tx.look
        is_old = look != (lock, self.machine.words["Lock"][lock])
        if is_old and self.rng.random() < 0.7:
            return ("Look", lock)
        if is_written and v.looks_unowned(lock):
            return ("Take", lock)
        if not is_written and v.looks_good(lock):
            return ("Load", at)
        if look is not None and look[1] % 2 == 0 and look[1] // 2 > v.tx.snapshot and self.rng.random() < 0.9:
            return ("Extend",)
        return ("Look", lock) if self.rng.random() < 0.4 else self.give_up(who, v)

    def give_up(self, who, v):
        """Locks and pins go, and then the transaction ends; it plans nothing more."""
        self.plans[who] = []
        return self.of_end(who, v)

    def of_end(self, who, v):
        writes = self.writes(v)
        if writes and self.rng.random() < (0.9 if v.draws and v.is_empty else 0.2):
            self.index += 1
            return ("Draw", self.index, writes)
        self.plans[who] = []
        if v.tx.owned and self.rng.random() < 0.9:
            return ("Restore", self.rng.choice(v.tx.owned)[0])
        if v.pins:
            return ("Unpin", self.rng.choice(v.pins)[0])
        self.index += 1
        return ("Finish", self.index) if self.rng.random() < 0.9 else ("SeeBox",)

    def writes(self, v):
        """Writes to words with owned locks on pinned pages: to few hot ones, or to many."""
        places = [at for at in self.hot if v.owns(self.z.lock_of(at)) and v.has_pin(page_of(at))]
        if places and self.rng.random() < 0.1:
            near = range(page_of(places[0]) * PAGE, page_of(places[0]) * PAGE + PAGE)
            places += [at for at in near if v.owns(self.z.lock_of(at))]
        places = sorted(set(places))
        self.rng.shuffle(places)
        count = min(len(places), self.rng.choice([1, 1, 2, 3, 4, 24]))
        return [(at, self.rng.randrange(10**6)) for at in places[:count]]

    def of_number(self, v):
        """What a number does next: checks, and then stores, touches, releases, pins that go, and the post, in some order."""
        hand, z, rng = v.tx.hand, self.z, self.rng
        left = [z.lock_of(at) for at, _ in v.tx.reads if z.lock_of(at) not in v.tx.checked]
        if hand.is_undecided():
            return ("Check", rng.choice(left)) if left and rng.random() < 0.9 else ("Decide",)
        if hand.void:
            steps = [("Restore", lock) for lock, _ in v.tx.owned] + [("Unpin", page) for page, _ in v.pins]
            return rng.choice(steps or [("Post",)])
        stores = [("Store", at) for at, _ in hand.writes if at not in hand.stored]
        pages = {page_of(at) for at, _ in hand.writes}
        touches = [("Touch", page) for page in sorted(pages) if page not in v.touched]
        if stores or touches:
            return rng.choice(stores + touches)
        steps = [("Release", lock) for lock, _ in v.tx.owned] + [("Unpin", page) for page, _ in v.pins]
        return rng.choice(steps or [("Post",)])

    # ---- events drawn blindly
    def blind(self):
        rng, z = self.rng, self.z
        kind = rng.choice(list(KINDS))
        name = rng.choice(KINDS[kind])
        if kind == "lock":
            return (name, rng.choice([z.lock_of(rng.choice(self.hot)), rng.randrange(z.locks + 1)]))
        if kind == "word":
            return (name, rng.choice([rng.choice(self.hot), rng.randrange(z.pages * PAGE + 2)]))
        if kind == "page":
            return (name, rng.choice([page_of(rng.choice(self.hot)), rng.randrange(z.pages + 1)]))
        if kind == "box":
            return (name, rng.randrange(z.threads + 1), rng.randrange(z.boxes + 1))
        if kind == "number":
            return self.blind_number(name)
        return self.blind_other(name) if kind == "other" else (name,)

    def blind_number(self, name):
        m = self.machine
        known = [m.words["Durable"][0], m.words["Clock"][0], m.store.reproduced, self.rng.choice(m.store.told)]
        number = max(0, self.rng.choice(known) + self.rng.choice([-1, 0, 0, 1]))
        return ("Device", ("Tell", number)) if name == "Tell" else (name, number)

    def blind_other(self, name):
        rng, z = self.rng, self.z
        page, frame = rng.randrange(z.pages + 1), rng.randrange(z.frames + 1)
        if name in ("Read", "Put", "Flush", "Fence"):
            return ("Device", self.blind_call(name))
        if name == "Split":
            return (name, 2**48)
        if name == "Join":
            return (name, len(self.machine.views) + rng.randrange(2))
        return {
            "Number": ("Number",),
            "Finish": ("Finish", rng.randrange(100)),
            "Draw": ("Draw", rng.randrange(100), [(at, 7) for at in sorted(set(rng.sample(self.hot, 2)))]),
            "Fill": ("Fill", page, frame, page * PAGE + rng.randrange(PAGE + 1)),
            "Show": ("Show", page, frame),
        }[name]

    def blind_call(self, name):
        """A call near the next one of a call of the back, or somewhere."""
        sizes, rng = self.script.sizes, self.rng
        if self.whole and rng.random() < 0.5:
            near = rng.choice(self.whole[:4])
            return (near[0], *(max(0, number + rng.choice([-1, 0, 1])) for number in near[1:]))
        at = rng.choice([8, 16, 17, sizes.cell_start(0, rng.randrange(16)), sizes.home_word(rng.choice(self.hot))])
        numbers = {"Read": (at,), "Put": (at, rng.randrange(3)), "Flush": (at // 8,), "Fence": ()}
        return (name, *numbers[name])

    # ---- what is asked
    def ask(self):
        """Some of what the machine has."""
        rng, z = self.rng, self.z
        at, who = rng.choice(self.hot), rng.randrange(len(self.machine.views))
        facts = "splits draws snapshot durable thread ended drawn owned pinned read turn spent found number".split()
        box = f"Box thread {rng.randrange(z.threads)} place {rng.randrange(z.boxes)}"
        words = ["Clock", "Turn", "Durable", "Reproduced", box]
        words += [f"Lock {z.lock_of(at)}", f"Entry {page_of(at)}", f"Touch {page_of(at)}"]
        self.command(f"holds {rng.choice(words)}")
        self.command(f"shows view {who}: {rng.choice(facts)}")
        ring = rng.randrange(self.script.sizes.rings)
        self.command(rng.choice([f"home {at}", f"value {at}", "waits", "mark", "calls", f"next ring {ring}"]))
        self.command(f"frame {rng.randrange(z.frames)} page {page_of(at)}" if rng.random() < 0.2 else "digest")


def schedule(seed, events):
    """Prints a script with about so many events."""
    s = Schedule(seed, events)
    ask_at = step = max(100, events // 40)
    while s.count < events:
        s.step()
        if s.count >= ask_at:
            s.ask()
            ask_at += step
    for line in ["holds Clock", "holds Durable", "holds Reproduced", "waits", "mark", "entries", "digest"]:
        s.command(line)
