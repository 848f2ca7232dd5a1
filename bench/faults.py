#!/usr/bin/env python3
"""faults.py [PROGRAM [FOLDER [MOST]]]

Lets each call that the built program (crates/dude/out/dude, or PROGRAM) makes on the system fail once, for each of its
commands, in a folder below FOLDER (/dev/shm): each allocation of memory, each read, each write of standard output and error,
each write of the image, each sync, and each call that makes or opens a file. `faults/failing.c` stands between the program and
the C library. A call fails before it has an effect; those on the image and the output also behind it, as a disk that is full,
and together with all calls behind it; and these writes move one byte and no more. At last nobody reads the output. Of more than
MOST (400) calls of one kind in one command only so many are tried, evenly spread.

After each fault the status has to be one that the fault may have, with its line on standard error, or the command has to end
as without the fault; where a write moves one byte it has to. What is left is recovered by the program and by recover.py, as
bench/kill.sh does it: both have to come to the same number and rows, at least the last number told, and those of prefixes of
the command's files. Of a command that changes no row the dump has to stay; of `follow` it has to be its leader's at that number.
What a `stream` printed has to be the first part of what it may print: of each file the first lines, and the last number behind
all of them.

Outside the gate. Prints a line for each command and kind: how many calls there are, how many were tried, and how often each
status came. Ends with 1 where something is wrong, and leaves the folder then.
"""
import collections
import os
import shutil
import struct
import subprocess
import sys
import tempfile

import recover

HERE = os.path.dirname(os.path.abspath(__file__))
# The sizes of a small image and of one with more pages than the fewest frames that a run may have, and their words at most.
SMALL, SMALL_WORDS = ("8", "96", "2", "16"), 1232
INDEXED_WORDS = 1360
WIDE, WIDE_WORDS = ("40", "480", "4", "16"), 8192
REQUESTS = 12

# The statuses that a fault of a kind may have, and how the line on standard error begins that each one has.
MAY_BE = {"memory": {8}, "read": {3, 6}, "write": {6, 7}, "put": {6}, "sync": {6}, "make": {3, 6}}
LINES = {3: "file ", 6: "device", 7: "output", 8: "memory"}
# How calls of a kind fail, as words of the environment.
EARLY, LATE, LASTING = {}, {"FAULT_LATE": "1"}, {"FAULT_LASTING": "1", "FAULT_ERRNO": "28"}
SHORT = {"FAULT_SHORT": "1"}
WAYS = {
    "memory": [EARLY, LASTING],
    "read": [EARLY],
    "make": [EARLY],
    "sync": [EARLY, LATE, LASTING],
    "write": [EARLY, LATE, LASTING, SHORT],
    "put": [EARLY, LATE, LASTING, SHORT],
}


class Wrong(Exception):
    """What a command left isn't what it has to be."""


class Case:
    """A command on an image: the image before it, or None, its words, and how what it leaves is judged."""

    def __init__(self, name, before, words, judged_as=None):
        self.name, self.before, self.words = name, before, words
        self.judged_as = judged_as or words


class Table:
    """The program, and the two images and dumps that are compared."""

    def __init__(self, program, shim):
        self.program, self.shim = program, shim
        self.dumps = {}

    def call(self, image, words, out=None, **fault):
        """The status of a command. Its output, what stands on standard error, and of that the numbers told are left in files."""
        given = dict(os.environ, LD_PRELOAD=self.shim, **fault) if fault else None
        with open("output", "wb") as file, open("errors", "wb") as err:
            status = subprocess.run([self.program, image, *words], stdin=subprocess.DEVNULL, stdout=out or file, stderr=err, env=given).returncode
        with open("errors", errors="replace") as errors, open("told", "w") as told:
            told.writelines(line for line in errors if line.startswith("durable ") and line.endswith("\n"))
        return status

    def made(self, image, sizes, words, *commands, form="format"):
        """Makes an image of so many words by the command `form`, and carries some commands out, which end well."""
        with open(image, "wb") as file:
            file.truncate(8 * words)
        for command in [(form, *sizes), *commands]:
            if self.call(image, command):
                raise Wrong(f"{' '.join(command)} didn't end well")

    def dump(self, image):
        """What the program dumps of a copy of an image, or nothing."""
        shutil.copy(image, "copy")
        status = subprocess.run([self.program, "copy", "dump"], stdin=subprocess.DEVNULL, stdout=subprocess.PIPE, stderr=subprocess.DEVNULL)
        return status.stdout.decode() if status.returncode == 0 else ""

    def carry_out(self, case, out=None, **fault):
        """Carries a command out on a fresh copy of its image."""
        if os.path.exists("image"):
            os.remove("image")
        if case.before:
            shutil.copy(case.before, "image")
        return self.call("image", case.words, out, **fault)

    def judge(self, case, is_ended):
        """Judges the image that a command left."""
        if not os.path.exists("image"):
            if case.before or recover.numbers_told("told"):
                raise Wrong("there is no image")
            return
        dumped = self.dump("image")
        if case.judged_as[0] == "leader":
            if dumped not in self.dumps.values():
                raise Wrong("the image isn't the leader's at a packet's end")
            told = recover.numbers_told("told")
            if told and int(dumped.rstrip().split(",")[-1]) < max(told):
                raise Wrong("the image recovers to less than was told")
        elif case.judged_as[0] == "same":
            if dumped != self.dumps[case.before]:
                raise Wrong("the image has another dump than before")
        else:
            with open("none", "wb"):
                pass
            recover.judged(is_ended, dumped, case.before or "none", "image", "told", *case.judged_as)

    def line_is(self, status):
        """Whether the last line on standard error is the status's, or couldn't be written."""
        with open("errors", errors="replace") as file:
            lines = file.read().rstrip("\n").split("\n")
        return status not in LINES or lines[-1].startswith(LINES[status])

    def try_kind(self, case, kind, most):
        """Tries each call of a kind in a command, and prints what came."""
        clean = self.carry_out(case, FAULT_KIND=kind, FAULT_COUNT="count")
        if clean:
            raise Wrong(f"{case.name} ends with {clean} without a fault")
        with open("output", "rb") as file:
            output = file.read()
        self.judge(case, True)
        count = counted()
        tried = sorted({1 + at * count // most for at in range(most)} if count > most else range(1, count + 1))
        came = collections.Counter()
        for call in tried:
            for way in WAYS[kind]:
                status = self.carry_out(case, FAULT_KIND=kind, FAULT_CALL=str(call), **way)
                self.check(case, kind, call, way, status, output)
                came[status] += 1
        said = ", ".join(f"{times} of status {status}" for status, times in sorted(came.items()))
        print(f"{case.name}: {kind}: {count} calls, {len(tried)} tried: {said or 'none'}", flush=True)
        return sum(came.values())

    def check(self, case, kind, call, way, status, output):
        where = f"{case.name}, {kind} call {call} {' '.join(way)}: status {status}"
        with open("output", "rb") as file:
            found = file.read()
        if status not in MAY_BE[kind] and status != 0:
            raise Wrong(f"{where}, which such a fault hasn't")
        if status and way is SHORT:
            raise Wrong(f"{where}, where only less was written at once")
        if status == 0 and len(case.words) < 3 and found != output:
            raise Wrong(f"{where} with another output")
        if status in (3, 8) and not way.get("FAULT_LASTING") and not self.line_is(status):
            raise Wrong(f"{where} without its line")
        try:
            if case.words[0] == "stream":
                judge_lines(found, output, status)
            self.judge(case, status in (0, 7))
        except (Wrong, recover.Wrong) as why:
            raise Wrong(f"{where}: {why}") from None

    def try_closed(self, case):
        """Tries a command whose output nobody reads: all is done then, too."""
        reader, writer = os.pipe()
        os.close(reader)
        try:
            status = self.carry_out(case, writer)
        finally:
            os.close(writer)
        if status != 7 or not self.line_is(status):
            raise Wrong(f"{case.name}: status {status} where nobody reads the output")
        self.judge(case, True)


def replies_in(text):
    """The replies in the whole lines of a stream, those of each file without their numbers; and whether its last line is there."""
    replies, has_last = collections.defaultdict(list), False
    for line in text.decode().split("\n")[:-1]:
        if has_last:
            raise Wrong("a line stands behind the last one")
        has_last = line.startswith("last ")
        if not has_last:
            file, _, reply = line.split(" ", 2)
            replies[file].append(reply)
    return replies, has_last


def judge_lines(found, output, status):
    """Judges what a stream printed by what it prints without a fault. Of several files numbers and order may differ."""
    (replies, has_last), (wanted, _) = replies_in(found), replies_in(output)
    if any(own != wanted[file][: len(own)] for file, own in replies.items()):
        raise Wrong("what it printed isn't the first lines of each file")
    if has_last and replies != wanted or status == 0 and not has_last:
        raise Wrong("the last number doesn't stand behind all lines")
    if len(wanted) < 2 and not output.startswith(found):
        raise Wrong("what it printed isn't the first part of its lines")


def counted():
    """How many calls of the kind the last command made."""
    with open("count", "rb") as file:
        return int.from_bytes(file.read(), sys.byteorder)


def write_files():
    """Writes two request files, one that changes one row again and again, and one for `follow`, each of whose packets has a
    request."""
    with open("one.csv", "w") as file:
        file.writelines(f"UPDATE_LOCATION,{1:015},{k}\n" for k in range(1, REQUESTS + 1))
    with open("two.csv", "w") as file:
        for k in range(REQUESTS):
            file.write(f"INSERT_CALL_FORWARDING,{2:015},{1 + k % 4},{8 * (k % 3)},{9 + k},{k:015}\nGET_NEW_DESTINATION,2,{1 + k % 4},0,24\n")
    with open("led.csv", "w") as file:
        file.writelines(f"UPDATE_LOCATION,{1:015},{k}\nSYNC\n" for k in range(1, 7))


def with_version_1(name):
    """Makes an image of version 1 whose ring 0 has a record of number 1."""
    with open(name, "r+b") as file:
        file.seek(8)
        file.write(struct.pack("<Q", 1))
        file.seek(8 * 16)
        file.write(struct.pack("<4Q", 2**62 + 1, 1, 22, 77))


def cases(table):
    """The commands that are tried."""
    write_files()
    table.made("opening", SMALL, SMALL_WORDS)
    table.made("filled", SMALL, SMALL_WORDS, ("run", "one.csv", "two.csv"))
    table.made("wide", WIDE, WIDE_WORDS)
    table.made("indexed", SMALL, INDEXED_WORDS, form="xformat")
    table.made("moved", SMALL, INDEXED_WORDS, ("run", "one.csv", "two.csv"), form="xformat")
    shutil.copy("opening", "first_version")
    with_version_1("first_version")
    # Records that wait: a run whose last write of the image fails.
    table.carry_out(Case("", "opening", ("run", "one.csv")), FAULT_KIND="put", FAULT_COUNT="count")
    last = counted() - 2
    table.carry_out(Case("", "opening", ("run", "one.csv")), FAULT_KIND="put", FAULT_CALL=str(last))
    shutil.copy("image", "waiting")
    shutil.copy("opening", "leader")
    table.call("leader", ("ship", "led.csv"))
    shutil.copy("output", "packets.bin")
    shutil.copy("opening", "audited")
    table.call("audited", ("run", "one.csv"))
    shutil.copy("output", "printed.txt")
    shutil.copy("opening", "step")
    table.dumps = {name: table.dump(name) for name in ("opening", "filled", "first_version", "waiting", "moved")}
    with open("led.csv") as file:
        for number, line in enumerate([line for line in file if line != "SYNC\n"], 1):
            with open("step.csv", "w") as step:
                step.write(line)
            table.call("step", ("run", "step.csv"))
            table.dumps[number] = table.dump("step")
    same = ("same",)
    return [
        Case("format", "filled", ("format", *SMALL)),
        Case("format of a new file", None, ("format", *SMALL)),
        Case("xformat", "moved", ("xformat", *SMALL)),
        Case("fresh", None, ("fresh", "8", "one.csv")),
        Case("recover", "filled", ("recover",), same),
        Case("recover of records that wait", "waiting", ("recover",), same),
        Case("recover of version 1", "first_version", ("recover",), same),
        Case("dump", "waiting", ("dump",), same),
        Case("locate", "moved", ("locate", "1", "4294967295", "8"), same),
        Case("audit", "opening", ("audit", "printed.txt", "one.csv"), same),
        Case("run of one file", "opening", ("run", "one.csv")),
        Case("run of two files", "waiting", ("run", "one.csv", "two.csv")),
        Case("run with an index", "indexed", ("run", "one.csv", "two.csv")),
        Case("run with few frames", "wide", ("run", "--frames", "32", "one.csv", "two.csv"), ("run", "one.csv", "two.csv")),
        Case("run on version 1", "first_version", ("run", "one.csv", "two.csv")),
        Case("stream of one file", "opening", ("stream", "one.csv"), ("run", "one.csv")),
        Case("stream of two files", "waiting", ("stream", "one.csv", "two.csv"), ("run", "one.csv", "two.csv")),
        Case("stream with few frames", "wide", ("stream", "--frames", "32", "one.csv", "two.csv"), ("run", "one.csv", "two.csv")),
        Case("drive", "opening", ("drive", "7", "20", "2")),
        Case("drive with an index", "indexed", ("drive", "7", "20", "2")),
        Case("ship", "opening", ("ship", "one.csv"), ("run", "one.csv")),
        Case("follow", "opening", ("follow", "packets.bin"), ("leader",)),
    ]


def main(words):
    program = os.path.abspath(words[0] if words else f"{os.path.dirname(HERE)}/crates/dude/out/dude")
    if not os.access(program, os.X_OK):
        sys.exit(f"no program: {program}; ./dude --version builds it")
    room = tempfile.mkdtemp(prefix="faults.", dir=words[1] if len(words) > 1 else "/dev/shm")
    most = int(words[2]) if len(words) > 2 else 400
    os.chdir(room)
    subprocess.run(["cc", "-O2", "-shared", "-fPIC", "-o", "failing.so", f"{HERE}/faults/failing.c"], check=True)
    table, faults = Table(program, f"{room}/failing.so"), 0
    try:
        for case in cases(table):
            faults += sum(table.try_kind(case, kind, most) for kind in MAY_BE)
            table.try_closed(case)
            faults += 1
    except Wrong as why:
        sys.exit(f"faults: {why}. What is left stands in {room}")
    shutil.rmtree(room)
    print(f"{faults} faults: each left an image that recovers to what the command may have done")


main(sys.argv[1:])
