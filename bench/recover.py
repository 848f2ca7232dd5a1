#!/usr/bin/env python3
"""recover.py [--ended] [--dump DUMPED] BEFORE AFTER TOLD COMMAND..

Judges what a command left that was killed or that ended. BEFORE is a copy of the image as it was at the start, AFTER is the
image now, TOLD is what the command printed on standard error, and COMMAND its words: `format S C N CELLS`, `xformat` with the same,
`fresh S FILE`, `run FILE..` or `drive SEED COUNT FILES`. It recovers both images by a slow program that shares nothing with the
repository's code (docs/FORMATS.md has the layout), reads their tables, judges an index by them, and carries the requests out on
tables of its own.

`run` and `drive` serve each file on a thread of its own, so the order of their requests isn't known, and some numbers have no
request. What must hold then is seen in the tables alone:

- Where no two files may change rows of one subscriber, the rows of a file's subscribers are those after a prefix of the file,
  and each other row is as before.
- Where they may, they change locations alone, each to a value of its own: some order of requests, those of each file being a
  prefix of it in its order, leaves these locations.

The requests of these prefixes that write are at most as many as numbers were recovered. `fresh` has one file and no number
without a request, so there they are exactly as many.

With --ended the command wasn't killed: the last number told is the one recovered to, and each file is done whole. With --dump
the program's own dump of this image has to be the one of the number and the tables found here.

Prints the last number told, the number that the image recovers to, and at least how many numbers have no request that
writes; or `none`, where the command makes its image anew and told nothing. Ends with 1 and says why where the image can't be
recovered, recovers to less than was told, or holds another database.
"""
import copy
import struct
import sys

MAGIC = 0x4D454D5445445544
MOST_RINGS = {1: 8, 2: 16}  # by the version of the image
MOST_INDEX = {1: 0, 2: 1}
MOST_NUMBER = 2**48 - 1
MOST_WRITES, MOST_SPAN = 96, 255
MOST_IN_VERSION_1 = 24
HEADER_WORDS = 16
HEAD, CONTINUATION = 1, 2


class Wrong(Exception):
    """The image isn't what it has to be."""


def up8(count):
    return (count + 7) // 8 * 8


# ---- the image ----


class Pool:
    """Where a table stands in the home: its header, its buckets and its records."""

    def __init__(self, at, buckets, records, size):
        self.header, self.buckets, self.size = at, buckets, size
        self.links = at + 8
        self.first = self.links + up8(buckets)
        self.count = records
        self.end = self.first + up8(records * size)


def pools_for(subscribers, calls):
    """The tables of subscribers, numbers, access rows, facilities and call rows, one behind the other."""
    parts, at = 4 * subscribers, 0
    for records, size in [(subscribers, 8), (subscribers, 4), (parts, 4), (parts, 4), (calls, 4)]:
        pool = Pool(at, records, records, size)
        at = pool.end
        yield pool


def tree_pools(at, subscribers):
    """The leaves and the inner records of an index, behind the tables."""
    leaves = Pool(at, 0, subscribers, 4)
    return leaves, Pool(leaves.end, 0, subscribers, 4)


def read_words(file, count):
    data = file.read(8 * count)
    if len(data) < 8 * count:
        raise Wrong("the image is too short")
    return list(struct.unpack(f"<{count}Q", data))


class Image:
    """A formatted image: its sizes, its mark, its cells and its home words."""

    def __init__(self, name):
        with open(name, "rb") as file:
            header = read_words(file, HEADER_WORDS)
            self.subscribers, self.calls, self.rings, self.cells, self.pages = header[2:7]
            self.mark = header[8]
            self.version = header[1]
            if header[0] != MAGIC or self.version not in MOST_RINGS or header[7] > MOST_INDEX[self.version]:
                raise Wrong("the image isn't formatted")
            if not (1 <= self.subscribers <= 10_000 and 1 <= self.calls <= 120_000 and 1 <= self.rings <= MOST_RINGS[self.version]):
                raise Wrong("a size is out of its limits")
            self.pools = list(pools_for(self.subscribers, self.calls))
            self.trees = list(tree_pools(self.pools[-1].end, self.subscribers)) if header[7] else []
            if not (16 <= self.cells <= 4_096 and self.pages == -(-(self.pools + self.trees)[-1].end // 64)):
                raise Wrong("a size is out of its limits")
            words = read_words(file, self.rings * self.cells * 8)
            self.home = read_words(file, self.pages * 64)
        self.cell_words = [words[first : first + 8] for first in range(0, len(words), 8)]

    def record_at(self, ring, slot):
        """The first and the last number of the record whose head stands in this slot, and its writes."""
        head = self.cell_words[ring * self.cells + slot]
        number, (span, count) = head[0] % 2**62, divmod(head[1], 256)
        if not (number <= MOST_NUMBER and span <= MOST_SPAN and self.mark < number - span):
            raise Wrong(f"ring {ring}, slot {slot}: no numbers of a record over the mark")
        if count > MOST_WRITES or -(-count // 3) > self.cells or (self.version == 1 and head[1] > MOST_IN_VERSION_1):
            raise Wrong(f"ring {ring}, slot {slot}: too many writes")
        pairs = head[2:]
        for index in range(1, -(-count // 3)):
            cell = self.cell_words[ring * self.cells + (slot + index) % self.cells]
            if cell[:2] != [CONTINUATION * 2**62 + number, index]:
                raise Wrong(f"ring {ring}, slot {slot}: the record of {number} isn't complete")
            pairs = pairs + cell[2:]
        writes = [(pairs[2 * i], pairs[2 * i + 1]) for i in range(count)]
        places = [at for at, _ in writes]
        if len(set(places)) < len(places) or any(at >= self.pages * 64 for at in places):
            raise Wrong(f"ring {ring}, slot {slot}: a write of no home word, or two of one")
        return number - span, number, writes

    def records(self):
        """Each record over the mark: its last number and its writes, by its first number."""
        found, covered = {}, set()
        for ring in range(self.rings):
            for slot in range(self.cells):
                kind, number = divmod(self.cell_words[ring * self.cells + slot][0], 2**62)
                if kind == HEAD and number > self.mark:
                    first, last, writes = self.record_at(ring, slot)
                    numbers = range(first, last + 1)
                    if not covered.isdisjoint(numbers):
                        raise Wrong(f"ring {ring}, slot {slot}: a second record of a number of {first} to {last}")
                    covered.update(numbers)
                    found[first] = last, writes
        return found

    def recovered(self):
        """The number and the tables that the image recovers to."""
        if self.mark > MOST_NUMBER:
            raise Wrong("the mark is too great")
        records, number, home = self.records(), self.mark, list(self.home)
        while number + 1 in records:
            number, writes = records[number + 1]
            for at, value in writes:
                home[at] = value
        tables = Tables(self.calls, *(rows_of(home, pool) for pool in self.pools))
        if self.trees:
            judge_index(home, *self.trees, tables)
        return number, tables


def chain(home, pool, link, seen):
    """The records from this link on, each a place."""
    places = []
    while link:
        if not (pool.first <= link < pool.first + pool.count * pool.size and (link - pool.first) % pool.size == 0):
            raise Wrong(f"{link} is no place of a record")
        if link in seen:
            raise Wrong(f"the record at {link} is met twice")
        seen.add(link)
        places.append(link)
        link = home[link + 1]
    return places


def rows_of(home, pool):
    """The words of each row behind its key and its link, by key."""
    seen, rows = set(), {}
    for bucket in range(pool.buckets):
        for place in chain(home, pool, home[pool.links + bucket], seen):
            key = home[place]
            if key % pool.buckets != bucket or key in rows:
                raise Wrong(f"key {key} stands in another bucket, or twice")
            rows[key] = tuple(home[place + 2 : place + pool.size])
    chain(home, pool, home[pool.header], seen)
    if len(seen) != pool.count or home[pool.header + 1] != len(rows):
        raise Wrong(f"the table at {pool.header} has lost a record, or counts others")
    return rows


def keys_below(home, leaves, inner, link, most, met):
    """The keys below a link of an index, from left to right. Bits are below `most`, and part the keys below them."""
    pool = leaves if link < leaves.end else inner
    if not (pool.first <= link < pool.first + pool.count * 4 and (link - pool.first) % 4 == 0) or link in met:
        raise Wrong(f"{link} is no place of a record of the index, or met twice")
    met.add(link)
    if pool is leaves:
        return [home[link]]
    bit = home[link]
    if bit >= most:
        raise Wrong(f"the bit {bit} stands below the bit {most}")
    sides = [keys_below(home, leaves, inner, home[link + 2 + side], bit, met) for side in (0, 1)]
    if len({key >> bit + 1 for keys in sides for key in keys}) > 1 or any(key >> bit & 1 != side for side in (0, 1) for key in sides[side]):
        raise Wrong(f"the bit {bit} doesn't part the keys below it")
    return sides[0] + sides[1]


def judge_index(home, leaves, inner, tables):
    """The index has the key of each subscriber, and no other, and each of its records is in use or free."""
    root, met = home[leaves.header + 2], set()
    keys = keys_below(home, leaves, inner, root, 64, met) if root else []
    if keys != sorted(words[4] << 32 | s_id for s_id, words in tables.subscribers.items()):
        raise Wrong("the index has other keys than the subscribers")
    used = len(met)
    for pool, count in (leaves, len(keys)), (inner, used - len(keys)):
        chain(home, pool, home[pool.header], met)
        if home[pool.header + 1] != count:
            raise Wrong(f"the pool at {pool.header} counts others")
    if len(met) != leaves.count + inner.count:
        raise Wrong("the index has lost a record")


# ---- the tables ----


def letters(x, count):
    """Letters as the low bytes of a number."""
    return sum((65 + (x + j) % 26) << 8 * j for j in range(count))


class Tables:
    """The rows of a database, each by its key, as the words of its record."""

    def __init__(self, limit, subscribers, numbers, access, facilities, calls):
        self.limit = limit
        self.subscribers, self.access, self.facilities, self.calls = subscribers, access, facilities, calls
        self.numbers = {number: words[0] for number, words in numbers.items()}

    def __eq__(self, other):
        return vars(self) == vars(other)

    def copied(self):
        other = copy.copy(self)
        vars(other).update({name: dict(rows) for name, rows in vars(self).items() if isinstance(rows, dict)})
        return other


def population(subscribers, limit):
    """The tables of a new image."""
    subs, numbers, access, facilities, calls = {}, {}, {}, {}, {}
    for s in range(1, subscribers + 1):
        bits = sum((s + i) % 2 << (i - 1) for i in range(1, 11))
        hexes = sum((s + i) % 16 << (10 + 4 * (i - 1)) for i in range(1, 11))
        data = [(7 * s + i) % 256 for i in range(1, 11)]
        low, high = (sum(byte << 8 * i for i, byte in enumerate(part)) for part in (data[:8], data[8:]))
        subs[s] = (bits + hexes, low, high, s, 1_000_000 + s, s)
        numbers[s] = (s,)
        for a in range(1, 2 + s % 4):
            data = (s + a) % 256 | (s * a % 256) << 8 | letters(s + a, 3) << 16
            access[4 * s + a - 1] = (data, letters(s + 2 * a, 5))
        for f in range(1, 2 + (s + 1) % 4):
            active = 0 if (s + f) % 7 == 0 else 1
            facility = 4 * s + f - 1
            facilities[facility] = (active | (s + 2 * f) % 256 << 8 | (3 * s + f) % 256 << 16, letters(s + 3 * f, 5))
            for k in range((s + f) % 4):
                calls[3 * facility + k] = (8 * k + 1 + (s * f + k) % 8, 100 * s + 10 * f + k)
    return Tables(limit, subs, numbers, access, facilities, calls)


def change(tables, request):
    """Carries a request out on the tables, and tells whether it wrote."""
    name, *fields = request
    values = [int(field) for field in fields]
    if name == "UPDATE_SUBSCRIBER_DATA":
        s, bit, sf_type, data = values
        facility = 4 * s + sf_type - 1
        if s not in tables.subscribers or facility not in tables.facilities:
            return False
        word, *others = tables.subscribers[s]
        tables.subscribers[s] = (word & ~1 | bit, *others)
        word, letters = tables.facilities[facility]
        tables.facilities[facility] = (word & 0xFFFF | data << 16, letters)
        return True
    if name == "UPDATE_LOCATION":
        number, location = values
        if number not in tables.numbers:
            return False
        *others, _, last = tables.subscribers[tables.numbers[number]]
        tables.subscribers[tables.numbers[number]] = (*others, location, last)
        return True
    if name in ("INSERT_CALL_FORWARDING", "DELETE_CALL_FORWARDING"):
        number, sf_type, start, *rest = values
        if number not in tables.numbers:
            return False
        facility = 4 * tables.numbers[number] + sf_type - 1
        key = 3 * facility + start // 8
        if name == "DELETE_CALL_FORWARDING":
            return tables.calls.pop(key, None) is not None
        if facility not in tables.facilities or key in tables.calls or len(tables.calls) >= tables.limit:
            return False
        tables.calls[key] = tuple(rest)
        return True
    return False


# ---- the dump ----


def bytes_in(word, count):
    return [word >> 8 * i & 0xFF for i in range(count)]


def text_in(word, count):
    return "".join(map(chr, bytes_in(word, count)))


def subscriber_fields(s, words):
    flags, low, high, msc, vlr, number = words
    bits = [flags >> i & 1 for i in range(10)]
    hexes = [flags >> (10 + 4 * i) & 15 for i in range(10)]
    return [s, f"{number:015}", *bits, *hexes, *bytes_in(low, 8), *bytes_in(high, 2), msc, vlr]


def dump_of(number, tables):
    """The dump of these tables at this number."""
    lines = [["SUBSCRIBER", *subscriber_fields(s, words)] for s, words in sorted(tables.subscribers.items())]
    for key, (data, last) in sorted(tables.access.items()):
        lines.append(["ACCESS_INFO", key // 4, key % 4 + 1, *bytes_in(data, 2), text_in(data >> 16, 3), text_in(last, 5)])
    for key, (data, last) in sorted(tables.facilities.items()):
        lines.append(["SPECIAL_FACILITY", key // 4, key % 4 + 1, *bytes_in(data, 3), text_in(last, 5)])
    for key, (end, to) in sorted(tables.calls.items()):
        lines.append(["CALL_FORWARDING", key // 12, key // 3 % 4 + 1, 8 * (key % 3), end, f"{to:015}"])
    return "".join(",".join(map(str, line)) + "\n" for line in [*lines, ["LAST", number]])


# ---- the requests ----


class Generator:
    """The generator PCG XSH RR 64/32, of which a load draws its numbers."""

    def __init__(self, seed, stream):
        self.step = 2 * stream + 1
        self.state = (seed + self.step) % 2**64
        self.turn()

    def turn(self):
        self.state = (self.state * 6364136223846793005 + self.step) % 2**64

    def draw(self):
        state = self.state
        self.turn()
        word = ((state >> 18 ^ state) >> 27) % 2**32
        return (word >> (state >> 59) | word << (-(state >> 59) % 32)) % 2**32


def load_of(seed, file, files, subscribers, count):
    """The requests of a file of a load."""
    generator = Generator(seed, file)
    for _ in range(count):
        w = [generator.draw() for _ in range(7)]
        kind = w[0] % 100
        s, kind_of_row = 1 + file + files * (w[1] % (subscribers // files)), 1 + w[2] % 4
        start, end = 8 * (w[3] % 3), 1 + w[4] % 24
        if kind < 35:
            yield ("GET_SUBSCRIBER_DATA", s)
        elif kind < 45:
            yield ("GET_NEW_DESTINATION", s, kind_of_row, start, end)
        elif kind < 80:
            yield ("GET_ACCESS_DATA", s, kind_of_row)
        elif kind < 82:
            yield ("UPDATE_SUBSCRIBER_DATA", s, w[6] % 2, kind_of_row, w[5] % 256)
        elif kind < 96:
            yield ("UPDATE_LOCATION", s, w[5])
        elif kind < 98:
            yield ("INSERT_CALL_FORWARDING", s, kind_of_row, start, end, w[6])
        else:
            yield ("DELETE_CALL_FORWARDING", s, kind_of_row, start)
    yield ("SYNC",)


def requests_in(name):
    with open(name) as file:
        return [line.split(",") for line in file.read().split("\n") if line]


def in_rounds(files):
    """Request 0 of each file, then request 1 of each, and so on."""
    for index in range(max(map(len, files), default=0)):
        for requests in files:
            if index < len(requests):
                yield requests[index]


def files_of(command, subscribers):
    """The lists of requests of a command."""
    kind, *words = command
    if kind == "drive":
        seed, count, files = map(int, words)
        return [list(load_of(seed, file, files, subscribers, count)) for file in range(files)]
    if kind == "run":
        return [requests_in(name) for name in words]
    return [requests_in(words[1])] if kind == "fresh" else []


# ---- files on threads ----


def changed_by(request, numbers):
    """The subscriber whose rows a request may change, or none."""
    name, *fields = request
    if name == "UPDATE_SUBSCRIBER_DATA":
        return int(fields[0])
    if name in ("UPDATE_LOCATION", "INSERT_CALL_FORWARDING", "DELETE_CALL_FORWARDING"):
        return numbers.get(int(fields[0]))
    return None


def rows_at(tables, s):
    """The rows of a subscriber that requests may change."""
    facilities = [tables.facilities.get(4 * s + f) for f in range(4)]
    return tables.subscribers.get(s), facilities, [tables.calls.get(12 * s + k) for k in range(12)]


def prefixes(requests, tables, found, own):
    """How many requests write in each prefix of a file after which the rows of its subscribers are those found, and in all
    of it. Carries the file out on the tables."""
    differing = {s for s in own if rows_at(tables, s) != rows_at(found, s)}
    writes, fitting = 0, [] if differing else [0]
    for request in requests:
        s = changed_by(request, tables.numbers)
        if change(tables, request):
            writes += 1
            (differing.discard if rows_at(tables, s) == rows_at(found, s) else differing.add)(s)
            if not differing:
                fitting.append(writes)
    return fitting, writes


def perform(tables, requests, writes):
    """Carries out the requests of a file until so many have written."""
    for request in requests:
        if writes == 0:
            break
        writes -= change(tables, request)


def writes_apart(tables, found, files, own, is_ended):
    """For each file how many requests write in those of its prefixes that leave the rows found."""
    if len(files) > 1 and tables.limit < 12 * len(tables.subscribers):
        raise Wrong("the table of call rows may be full, so the files aren't apart")
    reached, told = tables.copied(), []
    for index, (requests, mine) in enumerate(zip(files, own)):
        fitting, writes = prefixes(requests, tables, found, mine)
        if is_ended:
            fitting = [count for count in fitting if count == writes]
        if not fitting:
            raise Wrong(f"the rows of file {index}'s subscribers are those after no prefix of it that may be")
        perform(reached, requests, fitting[0])
        told.append(fitting)
    if reached != found:
        raise Wrong("rows have changed that no file changes")
    return told


def locations_of(requests, numbers):
    """The subscriber and the location of each request that writes, in a file that changes locations alone."""
    for request in requests:
        s = changed_by(request, numbers)
        if s is not None:
            if request[0] != "UPDATE_LOCATION":
                raise Wrong("files that share subscribers may change locations alone, to be judged")
            yield s, int(request[2])


def givers_of(files, tables, found):
    """By subscriber whose location is another one now, the file and the place there of the write that gave it."""
    givers = {pair: (file, at) for file, pairs in enumerate(files) for at, pair in enumerate(pairs)}
    if len(givers) < sum(map(len, files)) or any((s, words[4]) in givers for s, words in tables.subscribers.items()):
        raise Wrong("two requests of these files give one location, or it stood there before: this can't be judged")
    last = {}
    for s, words in tables.subscribers.items():
        location = found.subscribers[s][4]
        if location != words[4]:
            if (s, location) not in givers:
                raise Wrong(f"no request gives subscriber {s} the location {location}")
            last[s] = givers[s, location]
    return last


def has_order(files, last):
    """Whether the files' writes can be made in some order, each file's in its own, with these as the last ones."""
    left = {}
    for pairs in files:
        for s, _ in pairs:
            left[s] = left.get(s, 0) + 1
    done, is_moving = [0] * len(files), True
    while is_moving:
        is_moving = False
        for file, pairs in enumerate(files):
            while done[file] < len(pairs):
                s = pairs[done[file]][0]
                if last.get(s) == (file, done[file]) and left[s] > 1:
                    break
                left[s] -= 1
                done[file] += 1
                is_moving = True
    return done == list(map(len, files))


def writes_shared(tables, found, files, is_ended):
    """The least number of writes of each file in an order of prefixes of files that leaves the locations found."""
    files = [list(locations_of(requests, tables.numbers)) for requests in files]
    if set(found.subscribers) != set(tables.subscribers):
        raise Wrong("there are other subscribers than before")
    last = givers_of(files, tables, found)
    made = [len(pairs) if is_ended else 0 for pairs in files]
    for file, at in last.values():
        made[file] = max(made[file], at + 1)
    files = [pairs[:count] for pairs, count in zip(files, made)]
    if {s for pairs in files for s, _ in pairs} != set(last) or not has_order(files, last):
        raise Wrong("no order of prefixes of the files leaves these locations")
    for s in last:
        *others, _, number = tables.subscribers[s]
        tables.subscribers[s] = (*others, found.subscribers[s][4], number)
    if tables != found:
        raise Wrong("other rows than locations have changed")
    return made


def writes_between(tables, found, files, is_ended):
    """The least and the greatest number of requests that may have written, by the tables before and those found, or the list
    of these numbers where there is one file."""
    own = [{changed_by(request, tables.numbers) for request in requests} - {None} for requests in files]
    if sum(map(len, own)) == len(set().union(*own)):
        told = writes_apart(tables, found, files, own, is_ended)
        return told[0] if len(told) == 1 else [sum(it[0] for it in told), sum(it[-1] for it in told)]
    most = sum(len(list(locations_of(requests, tables.numbers))) for requests in files)
    least = sum(writes_shared(tables, found, files, is_ended))
    return [least, most]


# ---- the judgment ----


def numbers_told(name):
    """The numbers told. What stands behind the last line end isn't printed yet."""
    with open(name) as file:
        lines = file.read().split("\n")[:-1]
    if any(not line.startswith("durable ") for line in lines):
        raise Wrong("standard error has other lines than of durable numbers")
    return [int(line.split()[1]) for line in lines]


def opening_of(command, before):
    """The number and the tables that the command starts from."""
    if command[0] in ("format", "xformat"):
        return 0, population(int(command[1]), int(command[2]))
    if command[0] == "fresh":
        return 0, population(int(command[1]), 12 * int(command[1]))
    return Image(before).recovered()


def judged(is_ended, dumped, before, after, told_name, *command):
    told = numbers_told(told_name)
    is_new = command[0] in ("format", "xformat", "fresh")
    if not told and is_new:
        return "none"
    opening, tables = opening_of(command, before)
    if told != sorted(told) or told[:1] not in ([], [opening]):
        raise Wrong(f"the numbers told don't rise from {opening}")
    least = told[-1] if told else opening
    image = Image(after)
    number, found = image.recovered()
    if number < least:
        raise Wrong(f"durable {least} was printed, and the image recovers to {number}")
    if is_ended and number > least:
        raise Wrong(f"it ended with durable {least}, and the image recovers to {number}")
    if not told and number > opening:
        raise Wrong(f"nothing was told, and the image recovers to {number}")
    if dumped is not None and dumped != dump_of(number, found):
        raise Wrong(f"the program's dump is another one than that of number {number}")
    writes = writes_between(tables, found, files_of(command, image.subscribers) if told else [], is_ended)
    count = number - opening
    if writes[0] > count or is_new and count not in (writes or [0]):
        raise Wrong(f"{count} numbers were recovered over {opening}, and the tables have {writes[0]} to {writes[-1]} writes")
    return f"{least} {number} {max(0, count - writes[-1])}"


def main(words):
    is_ended, dumped = False, None
    if words[:1] == ["--ended"]:
        is_ended, words = True, words[1:]
    if words[:1] == ["--dump"]:
        with open(words[1]) as file:
            dumped = file.read()
        words = words[2:]
    print(judged(is_ended, dumped, *words))


if __name__ == "__main__":
    try:
        main(sys.argv[1:])
    except Wrong as why:
        sys.exit(f"recover: {why}")
