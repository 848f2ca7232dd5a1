"""Scripts: their words, commands and events, and what is printed."""
import re

from core_reference.digest import digest_of
from core_reference.history import follow_history
from core_reference.machine import Machine
from core_reference.pages import Pages
from core_reference.store import Sizes, append_calls, read_calls, reproduce_calls
from core_reference.views import MAX_NUMBER, MAX_RINGS, MAX_WRITES, PAGE, Setup, put_write

VIEWS = 16
PLAIN = "Number Begin Extend Decide SeeBox Post TakeTurn GiveTurn FailTurn".split()
ONE = (
    "Split Join Finish RaiseDurable RaiseReproduced Look Load Check Take Store Release Restore "
    "Entry Pin Unpin Touch LoadTouch Evict"
).split()
TWO = "SeeFull EmptyBox Show".split()
CALLS = {"Fence": 0, "Read": 1, "Flush": 1, "Tell": 1, "Put": 2}
# The words of the machine, as they are named where a view found one.
FOUND = {"Lock", "Entry", "Touch", "Cell", "Box"}


def term_of(word):
    if word.startswith("2^"):
        return 2 ** int(word[2:]) if word[2:].isdigit() and int(word[2:]) <= 64 else None
    if re.fullmatch("0x[0-9a-fA-F]+", word):
        return int(word, 16)
    return int(word) if re.fullmatch("[0-9]+", word) and int(word) < 2**64 else None


def number_of(word):
    """A number, or sums and differences of such without spaces; None where it is none below 2^64."""
    sign, total = 1, 0
    for part in re.split("([+-])", word):
        if part in ("+", "-"):
            sign = 1 if part == "+" else -1
            continue
        term = term_of(part)
        if term is None or total + sign * term < 0:
            return None
        total += sign * term
    return total if total < 2**64 else None


def numbers_in(text):
    return [number for number in map(number_of, text.split()) if number is not None]


def pairs_in(text):
    pairs = [[number_of(side) for side in word.split("=", 1)] for word in text.split() if "=" in word]
    return [tuple(pair) for pair in pairs if None not in pair]


def draw_of(index, text):
    writes = []
    for at, value in pairs_in(text):
        writes = put_write(writes, at, value)
    return ("Draw", index, writes) if len(writes) <= MAX_WRITES else None


def event_of(text):
    """The event that a text names, with its numbers; None where it names none."""
    name, _, rest = text.partition(" ")
    numbers = numbers_in(rest)
    if name == "Draw" and len(numbers) == 1:
        return draw_of(numbers[0], rest)
    if CALLS.get(name) == len(numbers):
        return ("Device", (name, *numbers))
    kinds = {0: PLAIN, 1: ONE, 2: TWO, 3: ["Fill"]}
    return (name, *numbers) if name in kinds.get(len(numbers), []) else None


def numbers_text(words, numbers):
    return words + ("".join(f" {number}" for number in numbers) or " none")


def maybe_text(words, number):
    return numbers_text(words, [] if number is None else [number])


def pairs_text(words, pairs):
    return words + ("".join(f" {at}={value}" for at, value in pairs) or " none")


class Script:
    """What a script has set up, and what it prints."""

    def __init__(self, say=print):
        self.sizes, self.first_word, self.machine, self.map, self.say = None, 0, None, None, say

    def take_line(self, line):
        """Prints a remark again, and carries out another line but for the reason behind ` # `."""
        if not line or line.startswith("#"):
            self.say(line)
        else:
            self.carry_out(line.partition(" # ")[0])

    def carry_out(self, command):
        head, _, rest = command.partition(": ")
        verb, _, name = head.partition(" ")
        numbers = numbers_in(name)
        if verb == "database":
            self.set_database(numbers)
        elif verb == "machine":
            self.set_machine(numbers)
        elif verb == "history":
            self.say(follow_history(name))
        elif verb == "map":
            self.ask_map(name.partition(" ")[0], numbers)
        elif self.machine is not None and not rest:
            self.say(self.machine_text(verb, name, numbers))
        elif self.machine is not None and len(numbers) == 1:
            self.say(self.view_text(verb, numbers[0], rest))
        else:
            self.say("no command")

    def set_database(self, numbers):
        if len(numbers) not in (3, 4):
            return self.say("no command")
        subscribers, calls, self.first_word, rings = (numbers + [MAX_RINGS])[:4]
        sizes = Sizes(subscribers, calls, rings, 16)
        self.sizes = sizes if sizes.are_accepted else None
        return self.say(maybe_text("pages", sizes.pages if self.sizes else None))

    def set_machine(self, numbers):
        if self.sizes is None:
            return self.say("no command")
        self.machine = None
        if len(numbers) != 5 or self.sizes.pages > 1000 or numbers[4] > MAX_NUMBER:
            return self.say("not set up")
        threads, frames, locks, boxes, first = numbers
        opening = [self.first_word + at for at in range(self.sizes.pages * PAGE)]
        z = Setup(threads, frames, locks, boxes, opening, first)
        if not z.is_within(self.sizes.rings):
            return self.say(f"a run out of its limits, with {frames} frames of {z.pages} pages")
        self.machine = Machine(z, self.sizes)
        return self.say("set up")

    def ask_map(self, name, numbers):
        if len(numbers) == 2:
            self.map = Pages(*numbers) if 1 <= numbers[1] <= numbers[0] <= 1000 else None
            self.say("set up" if self.map else "not set up")
        else:
            self.say(self.map.text_of(name, numbers) if self.map else "no command")

    # ---- what a view does
    def view_text(self, verb, who, rest):
        if verb in ("view", "off"):
            return self.each_text(who, rest, verb == "view")
        if verb == "fills":
            return self.fills_text(who, numbers_in(rest))
        if verb == "shows":
            view = self.machine.view(who)
            return "no view" if view is None else fact_text(view, rest)
        calls = self.whole_calls(verb, numbers_in(rest))
        return "no command" if calls is None else self.calls_text(who, calls)

    def each_text(self, who, events, wanted):
        words = {True: "allowed", False: "off"}
        texts = events.split("; ")
        for text in texts:
            event = event_of(text)
            if event is None:
                return f"no command: {text}"
            made = self.machine.make(who, event)
            if made != wanted:
                return f"{words[made]}: {text}"
        return f"{words[wanted]} {len(texts)}"

    def fills_text(self, who, numbers):
        if len(numbers) != 4:
            return "no command"
        page, frame, first, last = numbers
        for at in range(first, last + 1):
            if not self.machine.make(who, ("Fill", page, frame, at)):
                return f"off {at}"
        return f"allowed {max(0, last + 1 - first)}"

    def calls_text(self, who, calls):
        for call in calls:
            if not self.machine.make(who, ("Device", call)):
                return "off: " + " ".join(map(str, call))
        return f"allowed {len(calls)}"

    def whole_calls(self, verb, numbers):
        if verb == "persists" and len(numbers) in (2, 3):
            return self.persist_calls(numbers[0], numbers[1], numbers[-1])
        if len(numbers) != 1:
            return None
        if verb == "tells":
            return [("Tell", numbers[0])]
        if verb == "reproduces":
            return self.home_calls(numbers[0])
        return read_calls(self.sizes, numbers[0]) if verb == "reads" else None

    def persist_calls(self, ring, first, last):
        writes = []
        for number in range(first, last + 1):
            for view in self.machine.views:
                for entry in view.entries:
                    if entry.wrote and entry.number == number:
                        for at, value in entry.writes:
                            writes = put_write(writes, at, value)
        rings = self.machine.store.rings
        slot = rings[ring].next if ring < len(rings) else 0
        return append_calls(self.sizes, ring, slot, (min(first, last), last, writes))

    def home_calls(self, number):
        words = {}
        for _, last, writes in self.machine.store.leads():
            if last <= number:
                words.update(writes)
        return reproduce_calls(self.sizes, sorted(words.items()), number)

    # ---- what is asked of the machine
    def machine_text(self, verb, name, numbers):
        m = self.machine
        if verb == "entries":
            return entries_text(m)
        if verb == "digest":
            return f"digest {digest_of(m)}"
        if verb == "holds":
            return self.holds_text(name.partition(" ")[0], numbers)
        if verb == "frame":
            return self.frame_text(*numbers) if len(numbers) == 2 else "no command"
        return store_text(m.store, verb, numbers)

    def holds_text(self, kind, numbers):
        m, places = self.machine, {"Lock": 1, "Entry": 1, "Touch": 1, "Box": 2}
        if kind not in m.words or kind == "Cell" or len(numbers) != places.get(kind, 0):
            return "no command"
        if kind == "Box":
            thread, place = numbers
            is_there = thread < m.z.threads and place < m.z.boxes
            return maybe_text("holds", m.found("Box", m.z.box_of(thread, place)) if is_there else None)
        return maybe_text("holds", m.found(kind, *numbers))

    def frame_text(self, frame, page):
        others = []
        for k in range(PAGE):
            at, found = page * PAGE + k, self.machine.found("Cell", frame * PAGE + k)
            if found != self.first_word + at:
                others.append((at, found or 0))
        return f"frame {frame} holds page {page}" + (pairs_text(" but", others) if others else "")


def fact_text(v, name):
    """What a view knows, by the name of the fact."""
    numbers = {"splits": [v.splits], "draws": [v.draws], "snapshot": [v.tx.snapshot], "durable": [v.turn.durable]}
    numbers |= {"thread": [] if v.thread is None else [v.thread], "ended": v.ended, "drawn": v.drawn}
    pairs = {"owned": v.tx.owned, "pinned": v.pins, "read": v.tx.reads}
    truths = {"turn": v.turn.has_it, "spent": v.is_spent}
    if name in numbers:
        return numbers_text(name, numbers[name])
    if name in pairs:
        return pairs_text(name, pairs[name])
    if name in truths:
        return f"{name} {'yes' if truths[name] else 'no'}"
    return {"found": found_text, "number": hand_text}.get(name, lambda v: "no command")(v)


def found_text(v):
    if v.found is None:
        return "found none"
    (kind, at), number = v.found
    return f"found {kind}({at}) {number}" if kind in FOUND else f"found {kind} {number}"


def hand_text(v):
    hand = v.tx.hand
    if hand.void:
        number, writes = hand.record()
        return f"number void, with record of writes {hand.number} {number} {len(writes)}"
    return f"number {'decided' if hand.decided else 'undecided'} {hand.number}"


def entries_text(m):
    lines = []
    for who, view in enumerate(m.views):
        for entry in view.entries:
            reads, writes = pairs_text(", reads", entry.reads), pairs_text(", writes", entry.writes)
            kind = f"{entry.about.kind} {entry.about.index}"
            lines.append(f"view {who} at {entry.number}: {kind}{reads}{writes}")
    return "\n".join(lines + [f"entries {len(lines)}"])


def store_text(d, verb, numbers):
    if not numbers and verb in ("waits", "mark", "calls"):
        return {"waits": waits_text(d), "mark": f"mark {d.reproduced}", "calls": f"calls {len(d.calls)}"}[verb]
    if len(numbers) != 1 or verb not in ("home", "next", "value"):
        return "no command"
    number = numbers[0]
    if verb == "value":
        return maybe_text("value", d.word_read(number))
    words = d.home if verb == "home" else [ring.next for ring in d.rings]
    return maybe_text(verb, words[number] if number < len(words) else None)


def waits_text(d):
    bundles = [f" {first} to {last} in ring {ring}" for ring, (first, last, _) in d.waiting]
    return "waits" + (",".join(bundles) or " none")


def follow(text, say=print):
    """Follows a script."""
    script = Script(say)
    for line in text.splitlines():
        script.take_line(line)
