"""The events of the machine: where each is allowed, on which word it is a step, what the word becomes, and what the view becomes.

An event is a tuple of its name in a script and what it names. There are tables by name, one for each of these questions; each
function gets the setup, the view and what the event names, and that of the last two also the number found. `Split`, `Join`
and `Device` stand elsewhere."""
from core_reference.views import (
    MAX_WRITES,
    PAGE,
    About,
    Entry,
    Hand,
    cell_of,
    entry_with,
    find,
    frame_in,
    page_of,
    without,
    without_pins,
)


def is_lock(z, lock):
    return lock < z.locks


def is_word(z, at):
    return at < z.pages * PAGE


def is_page(z, page):
    return page < z.pages


def is_box(z, thread, place):
    return thread < z.threads and place < z.boxes


def fill_exists(z, page, frame, at):
    return page < z.pages and frame < z.frames and is_word(z, at)


def show_exists(z, page, frame):
    return page < z.pages and frame < z.frames


# Whether what the event names exists; where nothing stands here it names nothing.
EXISTS = {
    "Look": is_lock, "Check": is_lock, "Take": is_lock, "Release": is_lock, "Restore": is_lock,
    "Load": is_word, "Store": is_word,
    "SeeFull": is_box, "EmptyBox": is_box,
    "Entry": is_page, "Pin": is_page, "Unpin": is_page, "Touch": is_page, "LoadTouch": is_page, "Evict": is_page,
    "Fill": fill_exists, "Show": show_exists,
}  # fmt: skip


# ---- what the view allows
def can_load(z, v, at):
    return v.tx.is_steady() and v.looks_good(z.lock_of(at)) and v.has_pin(page_of(at))


def can_check(z, v, lock):
    if v.tx.loaded is not None:
        return lock == z.lock_of(v.tx.loaded[0])
    is_of_read = any(z.lock_of(at) == lock for at, _ in v.tx.reads)
    return is_of_read and (v.tx.extension is not None or v.tx.hand.is_undecided())


def can_draw(z, v, index, writes):
    places = [at for at, _ in writes]
    return (
        v.tx.is_steady()
        and 0 < len(places) <= MAX_WRITES
        and len(set(places)) == len(places)
        and all(is_word(z, at) and v.owns(z.lock_of(at)) and v.has_pin(page_of(at)) for at in places)
        and v.is_empty
        and 0 < v.draws
    )


def can_decide(z, v):
    return v.tx.hand.is_undecided() and all(z.lock_of(at) in v.tx.checked for at, _ in v.tx.reads)


def can_store(z, v, at):
    hand = v.tx.hand
    return hand.decided and find(hand.writes, at) is not None and v.owns(z.lock_of(at)) and v.has_pin(page_of(at))


def can_release(z, v, lock):
    hand = v.tx.hand
    return hand.decided and v.owns(lock) and all(at in hand.stored for at, _ in hand.writes if z.lock_of(at) == lock)


def can_post(z, v):
    return (v.tx.hand.decided or v.tx.hand.void) and not v.tx.owned and not v.pins


def can_pin(z, v, page):
    return v.tx.is_open and v.kept_entry(page) > 0 and not v.has_pin(page) and not v.turn.has_it


def can_unpin(z, v, page):
    hand = v.tx.hand
    if not v.has_pin(page) or hand.is_undecided():
        return False
    if not hand.decided:
        return True
    return all(at in hand.stored and page in v.touched for at, _ in hand.writes if page_of(at) == page)


def can_touch(z, v, page):
    hand = v.tx.hand
    return hand.decided and any(page_of(at) == page for at, _ in hand.writes) and v.has_pin(page)


def can_fill(z, v, page, frame, at):
    return v.turn.has_it and page_of(at) == page and find(v.turn.touches, page) is not None


def can_show(z, v, page, frame):
    return v.turn.has_it and all((page * PAGE + k, frame) in v.turn.filled for k in range(PAGE))


# Whether the view allows the event.
CAN = {
    "Number": lambda z, v: v.thread is None,
    "Begin": lambda z, v: v.is_idle(),
    "Extend": lambda z, v: v.tx.is_undrawn(),
    "Look": lambda z, v, lock: v.tx.is_steady(),
    "Load": can_load,
    "Check": can_check,
    "Finish": lambda z, v, index: v.tx.is_steady() and not v.tx.owned and not v.pins,
    "Take": lambda z, v, lock: v.tx.is_steady() and v.looks_unowned(lock),
    "Draw": can_draw,
    "Decide": can_decide,
    "Store": can_store,
    "Release": can_release,
    "Restore": lambda z, v, lock: v.owns(lock) and (v.tx.hand.void or v.tx.hand.number == 0),
    "SeeBox": lambda z, v: v.is_idle(),
    "Post": can_post,
    "TakeTurn": lambda z, v: not v.turn.has_it and not v.pins,
    "GiveTurn": lambda z, v: v.turn.has_it,
    "FailTurn": lambda z, v: False,
    "SeeFull": lambda z, v, thread, place: v.turn.has_it,
    "EmptyBox": lambda z, v, thread, place: v.turn.has_it,
    "RaiseDurable": lambda z, v, value: v.turn.has_it,
    "RaiseReproduced": lambda z, v, value: v.turn.has_it,
    "Entry": lambda z, v, page: v.tx.is_open or v.turn.has_it,
    "Pin": can_pin,
    "Unpin": can_unpin,
    "Touch": can_touch,
    "LoadTouch": lambda z, v, page: v.turn.has_it and find(v.kept, page) == 0,
    "Evict": lambda z, v, page: v.turn.has_it and v.kept_entry(page) > 0,
    "Fill": can_fill,
    "Show": can_show,
}


def may(z, v, event):
    """Whether the view may make the event: it is live, has a thread's number unless it draws one, and allows it."""
    name, names = event[0], event[1:]
    if v.is_spent or (v.thread is None and name != "Number"):
        return False
    if name in EXISTS and not EXISTS[name](z, *names):
        return False
    return CAN[name](z, v, *names)


# ---- the word of which the event is a step, by its kind and its place
def the(kind):
    return lambda z, v, *names: (kind, 0)


def numbered(kind):
    return lambda z, v, number: (kind, number)


def pinned_cell(z, v, at):
    return ("Cell", cell_of(v.pinned_frame(page_of(at)), at))


def boxed(z, v, thread, place):
    return ("Box", z.box_of(thread, place))


def next_box(z, v):
    return ("Box", v.next_box(z))


WORD = {
    "Number": the("Threads"), "Begin": the("Clock"), "Extend": the("Clock"),
    "Look": numbered("Lock"), "Load": pinned_cell, "Check": numbered("Lock"), "Finish": the("Threads"),
    "Take": numbered("Lock"), "Draw": the("Clock"),
    "Decide": lambda z, v: ("Lock", v.tx.owned[0][0] if v.tx.owned else 0),
    "Store": pinned_cell, "Release": numbered("Lock"), "Restore": numbered("Lock"),
    "SeeBox": next_box, "Post": next_box, "TakeTurn": the("Turn"), "GiveTurn": the("Turn"),
    "SeeFull": boxed, "EmptyBox": boxed, "RaiseDurable": the("Durable"), "RaiseReproduced": the("Reproduced"),
    "Entry": numbered("Entry"), "Pin": numbered("Entry"), "Unpin": numbered("Entry"), "Evict": numbered("Entry"),
    "Touch": numbered("Touch"), "LoadTouch": numbered("Touch"),
    "Fill": lambda z, v, page, frame, at: ("Cell", cell_of(frame, at)),
    "Show": lambda z, v, page, frame: ("Entry", page),
}  # fmt: skip

# What the word becomes, from the number n found in it; where nothing stands here it stays. `Fill` gets its value elsewhere.
BECOMES = {
    "Number": lambda z, v, n: n + 1,
    "Take": lambda z, v, n, lock: v.own_word() if n == v.tx.looked_word() else n,
    "Draw": lambda z, v, n, index, writes: n + 1,
    "Store": lambda z, v, n, at: find(v.tx.hand.writes, at),
    "Release": lambda z, v, n, lock: 2 * v.tx.hand.number,
    "Restore": lambda z, v, n, lock: find(v.tx.owned, lock),
    "Post": lambda z, v, n: v.tx.hand.number,
    "TakeTurn": lambda z, v, n: v.thread_number() + 1 if n == 0 else n,
    "GiveTurn": lambda z, v, n: 0,
    "EmptyBox": lambda z, v, n, thread, place: 0,
    "RaiseDurable": lambda z, v, n, value: value,
    "RaiseReproduced": lambda z, v, n, value: value,
    "Pin": lambda z, v, n, page: n + 1 if n == v.kept_entry(page) else n,
    "Unpin": lambda z, v, n, page: max(n - 1, 0),
    "Touch": lambda z, v, n, page: max(n, v.tx.hand.number),
    "Evict": lambda z, v, n, page: 0 if n == without_pins(v.kept_entry(page)) else n,
    "Show": lambda z, v, n, page, frame: entry_with(frame, 0),
}


# ---- what the view becomes, from the number n found
def reach(z, x, snapshot):
    """An extension to this snapshot, which ends where each lock of the reads was found good."""
    if all(z.lock_of(at) in x.checked for at, _ in x.reads):
        x.snapshot, x.extension = snapshot, None
    else:
        x.extension = snapshot


def after_number(z, v, n):
    v.thread = n


def after_begin(z, v, n):
    x = v.tx
    x.is_open, x.snapshot, x.extension, x.reads, x.loaded = True, n, None, [], None
    v.notice(("Clock", 0), n)


def after_extend(z, v, n):
    v.tx.checked, v.tx.loaded = [], None
    reach(z, v.tx, n)
    v.notice(("Clock", 0), n)


def after_look(z, v, n, lock):
    v.tx.look, v.tx.loaded = (lock, n), None
    v.notice(("Lock", lock), n)


def after_load(z, v, n, at):
    v.tx.loaded = (at, n)
    v.notice(pinned_cell(z, v, at), n)


def after_check(z, v, n, lock):
    """A value that waits joins the reads or is dropped; else a read's lock is checked for an extension or for the number."""
    x = v.tx
    if x.loaded is not None:
        if n == x.looked_word():
            x.reads = x.reads + [x.loaded]
        x.loaded = None
    elif x.extension is not None:
        if v.is_good(n):
            x.checked = [lock] + x.checked
            reach(z, x, x.extension)
        else:
            x.extension = None
    elif v.is_good(n):
        x.checked = [lock] + x.checked
    else:
        x.hand.void = True
    v.notice(("Lock", lock), n)


def after_finish(z, v, n, index):
    x = v.tx
    v.entries.append(Entry(x.snapshot, False, About(index, "request"), x.reads, []))
    x.is_open, x.loaded = False, None
    v.notice(("Threads", 0), n)


def after_take(z, v, n, lock):
    x = v.tx
    made = n == x.looked_word()
    x.loaded = None
    if made:
        x.owned = [(lock, n)] + x.owned
    else:
        x.look = (lock, n)
        v.notice(("Lock", lock), n)


def after_draw(z, v, n, index, writes):
    v.tx.loaded, v.tx.checked = None, []
    v.tx.hand = Hand(n + 1, About(index, "update"), writes)
    v.draws, v.drawn = v.draws - 1, v.drawn + [n + 1]


def after_decide(z, v, n):
    v.notice(WORD["Decide"](z, v), n)
    hand = v.tx.hand
    hand.decided = True
    v.entries.append(Entry(hand.number, True, hand.about, v.tx.reads, hand.writes))


def after_store(z, v, n, at):
    v.tx.hand.stored = [at] + v.tx.hand.stored


def after_release(z, v, n, lock):
    v.tx.owned = without(v.tx.owned, lock)


def after_see_box(z, v, n):
    v.tx.drop()
    v.is_empty = n == 0
    v.notice(next_box(z, v), n)


def after_post(z, v, n):
    v.tx.drop()
    v.tx.hand = Hand()
    v.touched = []
    v.next_place, v.is_empty = (v.next_place + 1) % z.boxes, False


def after_take_turn(z, v, n):
    if n == 0:
        v.kept = []
        v.turn.begin()
    else:
        v.notice(("Turn", 0), n)


def after_give_turn(z, v, n):
    v.turn.has_it = False


def after_see_full(z, v, n, thread, place):
    if n != 0:
        v.turn.full = [(z.box_of(thread, place), n)] + v.turn.full
    v.notice(boxed(z, v, thread, place), n)


def after_empty_box(z, v, n, thread, place):
    v.turn.full = without(v.turn.full, z.box_of(thread, place))


def after_raise_durable(z, v, n, value):
    v.turn.durable = value


def after_raise_reproduced(z, v, n, value):
    """The view stays."""


def after_entry(z, v, n, page):
    v.kept = [(page, n)] + v.kept
    v.notice(("Entry", page), n)


def after_pin(z, v, n, page):
    if n == v.kept_entry(page):
        v.pins = [(page, frame_in(n))] + v.pins
    else:
        after_entry(z, v, n, page)


def after_unpin(z, v, n, page):
    v.pins = without(v.pins, page)


def after_touch(z, v, n, page):
    v.touched = [page] + v.touched


def after_load_touch(z, v, n, page):
    v.turn.touches = [(page, n)] + v.turn.touches
    v.notice(("Touch", page), n)


def after_evict(z, v, n, page):
    if n == without_pins(v.kept_entry(page)):
        v.kept = [(page, 0)] + v.kept
        v.turn.replace(page)
    else:
        after_entry(z, v, n, page)


def after_fill(z, v, n, page, frame, at):
    """What other pages have in the frame isn't filled any more."""
    left = [pair for pair in v.turn.filled if pair[1] != frame or page_of(pair[0]) == page]
    v.turn.filled = [(at, frame)] + left


def after_show(z, v, n, page, frame):
    v.kept = [(page, entry_with(frame, 0))] + v.kept
    v.turn.replace(page)


AFTER = {
    "Number": after_number, "Begin": after_begin, "Extend": after_extend,
    "Look": after_look, "Load": after_load, "Check": after_check, "Finish": after_finish,
    "Take": after_take, "Draw": after_draw, "Decide": after_decide,
    "Store": after_store, "Release": after_release, "Restore": after_release,
    "SeeBox": after_see_box, "Post": after_post, "TakeTurn": after_take_turn, "GiveTurn": after_give_turn,
    "SeeFull": after_see_full, "EmptyBox": after_empty_box,
    "RaiseDurable": after_raise_durable, "RaiseReproduced": after_raise_reproduced,
    "Entry": after_entry, "Pin": after_pin, "Unpin": after_unpin, "Touch": after_touch,
    "LoadTouch": after_load_touch, "Evict": after_evict, "Fill": after_fill, "Show": after_show,
}  # fmt: skip
