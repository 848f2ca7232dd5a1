#!/usr/bin/env python3
"""deliveries.py [DELIVERIES [FOLDER [PROGRAM]]]

Delivers the packets of `ship` to `follow` over a bad link, DELIVERIES (1000) times, in a folder below FOLDER (/dev/shm), by
PROGRAM (crates/dude/out/dude). The link loses packets, repeats them, and changes their order; the packets that are left are
cut into files, and the files into several calls of `follow`, some of which are killed at a random moment. In one delivery of
eight it also brings packets of another leader, which may leave no database; then only what the call says is judged, and the
delivery ends. The last file may end inside a packet.

Each call is judged by rules and tables of its own. How far a follower comes, what waits and what is dropped is worked out by
the rules in docs/FORMATS.md; the database at a packet's end by recover.py's tables, on which the leader's requests are carried
out up to that number. A call that ends has to say just that, and the image's dump has to be that database's. After a kill the
image has to recover to the end of a packet, at least to the last number told, and to the database there. In the end all is
delivered once more, until nothing is missing, and the dump has to be the leader's own.

Outside the gate. Prints how many packets were lost and repeated, how many calls were made, killed and refused, and where a
kill came before the end. Ends with 1 and says why where something is wrong; the folder is left then.
"""
import os
import random
import shutil
import struct
import subprocess
import sys
import tempfile
import time

import recover

ROOM = 4096
SUBSCRIBERS, CALLS, RINGS, CELLS = 8, 60, 2, 64
LEADERS, REQUESTS = 20, 120


class Wrong(Exception):
    """What a call left isn't what it has to be."""


class Packet:
    """A packet: its bytes, its first and its last number."""

    def __init__(self, data):
        tag, counted = struct.unpack("<2Q", data[:16])
        self.data, self.last = data, tag % 2**62
        self.first = self.last - counted // 256

    def __eq__(self, other):
        return self.data == other.data

    def meets(self, other):
        return self.first <= other.last and other.first <= self.last


def packets_in(data):
    """The packets of a whole delivery."""
    packets, at = [], 0
    while at < len(data):
        (counted,) = struct.unpack("<Q", data[at + 8 : at + 16])
        size = 64 * max(1, -(-(counted % 256) // 3))
        packets.append(Packet(data[at : at + size]))
        at += size
    return packets


class Rule:
    """What a follower does with packets: its number, those that wait, and how many were dropped."""

    def __init__(self, number):
        self.number, self.kept, self.dropped = number, [], 0

    def take(self, packet):
        """Takes a packet, and tells whether it is strange."""
        if packet.last <= self.number:
            return False
        if packet.first <= self.number or packet not in self.kept and any(map(packet.meets, self.kept)):
            return True
        if packet.first == self.number + 1:
            self.number = packet.last
            while follows := [kept for kept in self.kept if kept.first == self.number + 1]:
                self.number = follows[0].last
            self.kept = [kept for kept in self.kept if kept.first > self.number]
        elif packet not in self.kept:
            if len(self.kept) < ROOM:
                self.kept.append(packet)
            else:
                self.dropped += 1
        return False


class Leader:
    """A leader: its packets, and the dump at each number that is one's last."""

    def __init__(self, place, program, generator):
        self.place, self.program = place, program
        shutil.copy("opening", f"{place}.img")
        tables, number = recover.population(SUBSCRIBERS, CALLS), 0
        self.packets, dumps = [], {0: recover.dump_of(0, tables)}
        for run in range(2):
            files = [list(requests(generator)) for _ in range(generator.randrange(1, RINGS + 1))]
            names = [f"{place}.{run}.{file}" for file in range(len(files))]
            for name, lines in zip(names, files):
                with open(name, "w") as file:
                    file.writelines(",".join(map(str, request)) + "\n" for request in lines)
            self.packets += packets_in(call(program, f"{place}.img", "ship", *names)[1])
            for request in recover.in_rounds([recover.requests_in(name) for name in names]):
                if recover.change(tables, request):
                    number += 1
                    dumps[number] = recover.dump_of(number, tables)
        self.dumps = {end: dumps[end] for end in [0, *(packet.last for packet in self.packets)]}
        if dump(program, f"{place}.img") != dumps[number] or [0, number] != [self.packets[0].first - 1, self.packets[-1].last]:
            raise Wrong(f"the run of leader {place} isn't that of its requests")


def requests(generator):
    """The requests of a file: mostly such as write, and many a SYNC, which ends a bundle."""
    draw = generator.randrange
    for _ in range(REQUESTS):
        s, kind, start = 1 + draw(SUBSCRIBERS), 1 + draw(4), 8 * draw(3)
        yield [
            ("UPDATE_LOCATION", f"{s:015}", draw(2**32)),
            ("UPDATE_SUBSCRIBER_DATA", s, draw(2), kind, draw(256)),
            ("INSERT_CALL_FORWARDING", f"{s:015}", kind, start, 1 + draw(24), f"{draw(10**15):015}"),
            ("DELETE_CALL_FORWARDING", f"{s:015}", kind, start),
            ("GET_SUBSCRIBER_DATA", s),
            ("SYNC",),
        ][draw(6)]


def call(program, *words, killed=None):
    """The status, the output and what was told of a command; where `killed` is so many seconds, it is killed then."""
    with subprocess.Popen([program, *words], stdin=subprocess.DEVNULL, stdout=subprocess.PIPE, stderr=subprocess.PIPE) as ran:
        if killed is not None:
            time.sleep(killed)
            ran.kill()
        out, told = ran.communicate()
    if killed is None and ran.returncode and "follow" not in words:
        raise Wrong(f"{' '.join(words)} ended with {ran.returncode}: {told[-200:]}")
    return ran.returncode, out, told.decode()


def dump(program, image):
    return call(program, image, "dump")[1].decode()


class Tally:
    """What is told in the end."""

    def __init__(self):
        self.lost = self.repeated = self.calls = self.killed = self.early = self.refused = 0


class Delivery:
    """A delivery: a leader's packets as a link brings them to an image of its own."""

    def __init__(self, index, leader, other, tally):
        self.generator = random.Random(index)
        self.leader, self.other, self.tally = leader, other, tally
        self.number, self.is_led = 0, True
        shutil.copy("opening", "follower")

    def brought(self):
        """The packets that come: some lost, some more than once, and each only near its place."""
        draw, coming = self.generator, []
        reach = draw.choice([0, 2, 10, len(self.leader.packets)])
        for place, packet in enumerate(self.leader.packets):
            copies = draw.choices([0, 1, 2, 3], [2, 10, 2, 1])[0]
            self.tally.lost += copies == 0
            self.tally.repeated += max(0, copies - 1)
            coming += [(place + draw.uniform(0, reach), packet) for _ in range(copies)]
        if self.generator.randrange(8) == 0:
            coming += [(draw.uniform(0, len(coming)), packet) for packet in draw.choices(self.other.packets, k=3)]
        return [packet for _, packet in sorted(coming, key=lambda pair: pair[0])]

    def run(self):
        for _ in range(self.generator.randrange(1, 4)):
            self.follow(self.brought(), self.generator.randrange(4) == 0, self.generator.randrange(8) == 0)
            if not self.is_led:
                return
        self.follow(self.leader.packets, False, False)
        if dump(self.leader.program, "follower") != dump(self.leader.program, f"{self.leader.place}.img"):
            raise Wrong("all was delivered, and the dump isn't the leader's")

    def follow(self, packets, is_killed, is_short):
        """Makes a call of `follow` with these packets in one to four files, the last one cut short or not, and judges what
        it left."""
        cuts = sorted(self.generator.choices(range(len(packets) + 1), k=self.generator.randrange(4)))
        files = [packets[first:last] for first, last in zip([0, *cuts], [*cuts, len(packets)])]
        short = 0
        for at, each in enumerate(files):
            data = b"".join(packet.data for packet in each)
            if at == len(files) - 1 and data and is_short:
                short = self.generator.randrange(1, 64)
            with open(f"files{at}", "wb") as file:
                file.write(data[: len(data) - short])
        names = [f"files{at}" for at in range(len(files))]
        self.is_led = all(packet in self.leader.packets for packet in packets)
        killed = self.generator.uniform(0, 0.02) if is_killed else None
        status, out, told = call(self.leader.program, "follower", "follow", *names, killed=killed)
        self.tally.calls += 1
        if status < 0:
            self.tally.killed += 1
            if self.is_led:
                self.judge_killed(told)
        else:
            self.judge(status, out.decode(), told, files, short)

    def judge_killed(self, told):
        """Judges what a call left that was killed. It keeps no packet, and may have come to any end."""
        whole = told.split("\n")[:-1]
        least = max([self.number, *(int(line.split()[1]) for line in whole if line.startswith("durable "))])
        dumped = dump(self.leader.program, "follower")
        number = int(dumped.split(",")[-1])
        if number < least:
            raise Wrong(f"{least} was told, and the image recovers to {number}")
        self.tally.early += number < self.leader.packets[-1].last
        self.number = number
        self.check_dump(dumped)

    def judge(self, status, out, told, files, short):
        """Judges a call that ended by itself."""
        rule, said = Rule(self.number), None
        for at, packets in enumerate(files):
            if short and at == len(files) - 1:
                said = 4, f"file {at + 1} record {len(packets)} field 0"
                break
            strange = next((place for place, packet in enumerate(packets) if rule.take(packet)), None)
            if strange is not None:
                said = 11, f"strange packet {strange + 1} of file {at + 1}"
                break
        last = told.rstrip("\n").split("\n")[-1]
        if said:
            self.tally.refused += 1
            if (status, last, out) != (*said, ""):
                raise Wrong(f"{said} was to come, and status {status} came with {last}")
        elif (status, out) != (0, f"last {rule.number} waiting {len(rule.kept)} dropped {rule.dropped}\n"):
            raise Wrong(f"number {rule.number} was to come, and status {status} came with {out}{last}")
        self.number = rule.number
        if self.is_led:
            self.check_dump(dump(self.leader.program, "follower"))

    def check_dump(self, dumped):
        """Whether the image has the leader's tables at the number, and is at that number."""
        if dumped != self.leader.dumps.get(self.number):
            raise Wrong(f"the image isn't the leader's at {self.number}")


def main(words):
    top = os.path.dirname(os.path.dirname(os.path.abspath(__file__)))
    count = int(words[0]) if words else 1000
    program = os.path.abspath(words[2]) if len(words) > 2 else f"{top}/crates/dude/out/dude"
    if not os.access(program, os.X_OK):
        sys.exit(f"no program: {program}; ./dude --version builds it")
    room = tempfile.mkdtemp(prefix="deliveries.", dir=words[1] if len(words) > 1 else "/dev/shm")
    os.chdir(room)
    call(program, "opening", "format", *map(str, (SUBSCRIBERS, CALLS, RINGS, CELLS)))
    tally, leaders = Tally(), []
    try:
        leaders = [Leader(f"leader{index}", program, random.Random(index)) for index in range(min(LEADERS, count + 1))]
        for index in range(count):
            place = index % len(leaders)
            Delivery(index, leaders[place], leaders[place - 1], tally).run()
    except Wrong as why:
        sys.exit(f"WRONG in {room}, {tally.calls} calls of follow: {why}")
    shutil.rmtree(room)
    print(
        f"{count} deliveries: {tally.lost} packets lost, {tally.repeated} repeated; {tally.calls} calls of follow, "
        f"{tally.refused} refused as they had to be, {tally.killed} killed, {tally.early} of these before the end; "
        "each dump is the leader's at its number"
    )


if __name__ == "__main__":
    main(sys.argv[1:])
