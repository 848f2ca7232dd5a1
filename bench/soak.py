#!/usr/bin/env python3
"""soak.py [SECONDS [FOLDER [PROGRAM]]]

Uses one image of a small size for SECONDS (3600), in a folder below FOLDER (/dev/shm), by PROGRAM (crates/dude/out/dude). Each
round is a load, a run or a stream of one to four files, one of these two with few frames, which evicts pages all the time, or a
recovery. The rings have sixteen cells, so they go round in each round. Two of three rounds are killed at a random moment; of
half of the streams then it is the reader of their output that goes, and all has to be done. Behind a round that ended the image
is made one of version 1, sometimes, which the next round raises.

What a round leaves is recovered by the program and by recover.py: both have to come to the same number and rows, at least the
last number told, and those of prefixes of the round's files over the rows before it. A stream has lines of each file in their
order, of one that ended all; and the image recovers to at least the greatest number that a line calls durable.

Outside the gate. Prints every minute, and in the end, how many rounds of each kind there were, how many were killed, and where;
how far the image recovered over the last number told; how many numbers had no request; and how often a version was raised.
Ends with 1 and says why where something is wrong, and leaves the folder then.
"""
import collections
import os
import random
import select
import shutil
import struct
import subprocess
import sys
import tempfile
import time

import recover

HERE = os.path.dirname(os.path.abspath(__file__))
SUBSCRIBERS, RINGS, CELLS, MOST_FILES = 40, 8, 16, 4
IMAGE_WORDS = 40_000


def write_requests(draw, count, subscribers, most):
    """Writes request files of up to so many lines, each of subscribers of its own, and gives their names."""
    names = [f"file{at}.csv" for at in range(count)]
    for at, name in enumerate(names):
        with open(name, "w") as file:
            for _ in range(draw.randrange(100, most)):
                file.write(a_request(draw, 1 + at + MOST_FILES * draw.randrange(subscribers // MOST_FILES)))
    return names


def a_request(generator, s):
    """The line of a request that names a subscriber, or of a SYNC."""
    draw = generator.randrange
    kind, start, end = 1 + draw(4), 8 * draw(3), 1 + draw(24)
    return generator.choice(
        [
            f"UPDATE_LOCATION,{s:015},{draw(2**32)}\n",
            f"UPDATE_SUBSCRIBER_DATA,{s},{draw(2)},{kind},{draw(256)}\n",
            f"INSERT_CALL_FORWARDING,{s:015},{kind},{start},{end},{draw(10**15):015}\n",
            f"DELETE_CALL_FORWARDING,{s:015},{kind},{start}\n",
            f"GET_NEW_DESTINATION,{s},{kind},{start},{end}\n",
            f"GET_SUBSCRIBER_DATA,{s}\n",
            "SYNC\n",
        ]
    )


class Soak:
    """The image, the program, and what was counted."""

    def __init__(self, program, seed):
        self.program, self.draw = program, random.Random(seed)
        self.counts, self.durations = collections.Counter(), {}
        self.furthest = self.void = self.last = 0
        self.is_ended = True
        with open("image", "wb") as file:
            file.truncate(8 * IMAGE_WORDS)
        self.call(["format", str(SUBSCRIBERS), str(12 * SUBSCRIBERS), str(RINGS), str(CELLS)], None)

    def call(self, words, seconds):
        """The status of a command, which is killed after so many seconds."""
        with open("output", "wb") as out, open("told", "wb") as err:
            with subprocess.Popen([self.program, "image", *words], stdin=subprocess.DEVNULL, stdout=out, stderr=err) as ran:
                try:
                    ran.wait(seconds)
                except subprocess.TimeoutExpired:
                    ran.kill()
        return ran.returncode

    def call_read(self, words, seconds):
        """The status of a command whose output is read for so many seconds."""
        end = time.monotonic() + seconds
        with open("output", "wb") as out, open("told", "wb") as err:
            with subprocess.Popen([self.program, "image", *words], stdin=subprocess.DEVNULL, stdout=subprocess.PIPE, stderr=err) as ran:
                while select.select([ran.stdout], [], [], max(0, end - time.monotonic()))[0]:
                    if not (piece := os.read(ran.stdout.fileno(), 1 << 16)):
                        break
                    out.write(piece)
                ran.stdout.close()
        return ran.returncode

    def words(self):
        """The next command: its kind, its words, and those by which it is judged."""
        kind = self.draw.choice(["drive", "run", "run with few frames", "stream", "stream with few frames", "recover"])
        if kind == "drive":
            words = ["drive", str(self.draw.randrange(10**6)), str(self.draw.randrange(100, 3000)), str(self.draw.choice([1, 2, 4]))]
            return kind, words, words
        if kind == "recover":
            return kind, ["recover"], ["recover"]
        names = write_requests(self.draw, self.draw.randrange(1, MOST_FILES + 1), SUBSCRIBERS, 1500)
        command, *few = kind.split(" ", 1)
        frames = ["--frames", str(self.draw.randrange(32, 48))] if few else []
        return kind, [command, *frames, *names], ["run", *names]

    def lower(self):
        """Makes the image one of version 1, which nothing waits in."""
        with open("image", "r+b") as file:
            file.seek(8)
            file.write(struct.pack("<Q", 1))
        self.counts["versions raised"] += 1

    def round(self):
        if self.is_ended and self.draw.randrange(4) == 0:
            self.lower()
        shutil.copy("image", "before")
        kind, words, judged_as = self.words()
        moment = self.draw.uniform(0, 1.2 * self.durations.get(kind, 0.05)) if self.draw.randrange(3) else None
        is_read = words[0] == "stream" and moment is not None and self.draw.randrange(2) == 0
        begun = time.monotonic()
        status = self.call_read(words, moment) if is_read else self.call(words, moment)
        self.is_ended = status in (0, 7)
        if status not in (0, 7 if is_read else -9):
            raise recover.Wrong(f"{' '.join(words)} ended with {status}")
        if status == 0:
            self.durations[kind] = time.monotonic() - begun
        if status == 7:
            self.leave_numbers()
        shutil.copy("image", "copy")
        dumped = subprocess.run([self.program, "copy", "dump"], stdin=subprocess.DEVNULL, stdout=subprocess.PIPE, stderr=subprocess.DEVNULL, check=True)
        said = recover.judged(self.is_ended, dumped.stdout.decode(), "before", "image", "told", *judged_as)
        least, self.last, void = map(int, said.split())
        if words[0] == "stream":
            self.judge_lines(judged_as[1:], status)
        told = recover.numbers_told("told")
        self.counts[kind] += 1
        self.counts["left by their reader" if status == 7 else "ended" if self.is_ended else "killed before the first tell" if not told else "killed behind a tell"] += 1
        self.furthest, self.void = max(self.furthest, self.last - least), self.void + void

    def leave_numbers(self):
        """Takes the line of status 7 from the end of what was told."""
        with open("told") as file:
            *told, last = file.read().splitlines(keepends=True)
        if last != "output\n":
            raise recover.Wrong(f"status 7 with the line {last!r}")
        with open("told", "w") as file:
            file.writelines(told)

    def judge_lines(self, names, status):
        """Judges what a stream printed of these files."""
        with open("output") as file:
            lines = [line.split() for line in file.read().split("\n")[:-1]]
        is_whole = bool(lines) and lines[-1][0] == "last"
        if is_whole and int(lines.pop()[1]) != self.last or status == 0 and not is_whole:
            raise recover.Wrong("a stream's last line isn't its last number")
        for at, name in enumerate(names, 1):
            kinds = [request[0] == "SYNC" for request in recover.requests_in(name)]
            own = [line[2] == "DURABLE" for line in lines if line[0] == str(at)]
            if own != kinds[: len(own)] or is_whole and len(own) < len(kinds):
                raise recover.Wrong(f"the lines of file {at} aren't those of its requests")
        if any(not 1 <= int(line[0]) <= len(names) for line in lines):
            raise recover.Wrong("a line is of no file")
        durable = max((int(line[1]) for line in lines if line[2] == "DURABLE"), default=0)
        if durable > self.last:
            raise recover.Wrong(f"{durable} was printed as durable, and the image recovers to {self.last}")

    def tell(self, begun):
        said = ", ".join(f"{count:,} {kind}" for kind, count in sorted(self.counts.items()))
        print(f"{time.monotonic() - begun:,.0f} s: {said}; number {self.last:,}, at most {self.furthest} over the last told, {self.void:,} without a request", flush=True)


def main(words):
    program = os.path.abspath(words[2] if len(words) > 2 else f"{os.path.dirname(HERE)}/crates/dude/out/dude")
    if not os.access(program, os.X_OK):
        sys.exit(f"no program: {program}; ./dude --version builds it")
    room = tempfile.mkdtemp(prefix="soak.", dir=words[1] if len(words) > 1 else "/dev/shm")
    os.chdir(room)
    seconds, begun = float(words[0]) if words else 3600, time.monotonic()
    soak, next_line = Soak(program, 1), 60
    try:
        while (now := time.monotonic() - begun) < seconds:
            soak.round()
            if now > next_line:
                soak.tell(begun)
                next_line += 60
    except (recover.Wrong, subprocess.CalledProcessError) as why:
        soak.tell(begun)
        sys.exit(f"soak: {why}. What is left stands in {room}")
    soak.tell(begun)
    shutil.rmtree(room)


if __name__ == "__main__":
    main(sys.argv[1:])
