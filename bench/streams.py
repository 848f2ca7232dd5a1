#!/usr/bin/env python3
"""Runs `stream` on the built program, and judges and times what it prints while it goes on.

    bench/streams.py [ROUNDS [PROGRAM]]     200 rounds with crates/dude/out/dude, where nothing else is said

In each round four files of 300 requests, which share all subscribers, are streamed on a new image in memory. The lines are
put in order of file, without the file's number, and `audit` has to say yes to them on a copy of the image from before. In as
many more rounds a stream of four files of updates, each with a `SYNC` behind it, is killed while it prints: the image has to
recover to at least the greatest number that a whole line calls durable. Then four files of 80,000 requests are run and streamed in turn, five times each: it prints the medians and how often the second is
the first, and for streams how soon the first line came and how many lines came before the last quarter of the time. Outside
the gate, on a machine that does nothing else.
"""
import os
import shutil
import statistics
import subprocess
import sys
import tempfile
import time

sys.dont_write_bytecode = True
TOP = os.path.dirname(os.path.dirname(os.path.abspath(__file__)))
sys.path[:0] = [f"{TOP}/bench", f"{TOP}/bench/stores"]
from load import text_of
from recover import load_of

FILES = ["a.csv", "b.csv", "c.csv", "d.csv"]
PROGRAM = os.path.abspath(sys.argv[2]) if len(sys.argv) > 2 else f"{TOP}/crates/dude/out/dude"


def done(*words):
    """What a command prints, which has to end well."""
    it = subprocess.run([PROGRAM, *words], stdout=subprocess.PIPE, stderr=subprocess.DEVNULL)
    if it.returncode:
        sys.exit(f"{' '.join(words)}: status {it.returncode}")
    return it.stdout


def write_files(seed, subscribers, count, files):
    """Request files; each may name any subscriber where `files` is 1."""
    for number, name in enumerate(FILES):
        load = load_of(seed + number, number if files > 1 else 0, files, subscribers, count)
        with open(name, "w") as out:
            out.writelines(f"{text_of(it)}\n" for it in load)


def in_order(printed):
    """What `run` would print: the lines of the first file, then those of the second, and the last line."""
    *lines, last = printed.decode().splitlines()
    parts = [line.partition(" ") for line in lines]
    own = [[text for number, _, text in parts if number == str(k + 1)] for k in range(len(FILES))]
    if sum(map(len, own)) != len(lines):
        sys.exit("a line of no file")
    return "".join(f"{line}\n" for line in [*sum(own, []), last])


def judge(round_number):
    write_files(4 * round_number, 40, 300, 1)
    done("t.img", "format", "40", "480", "4", "16")
    shutil.copy("t.img", "before.img")
    text = in_order(done("t.img", "stream", *FILES))
    with open("printed", "w") as out:
        out.write(text)
    if done("before.img", "audit", "printed", *FILES) != b"yes\n":
        sys.exit(f"round {round_number}: the audit doesn't say yes")


def kill(round_number):
    """Kills a stream; how many of its lines came, where some did and more were to come."""
    for number, name in enumerate(FILES):
        with open(name, "w") as out:
            out.writelines(f"UPDATE_LOCATION,{1 + number + 4 * (k % 10):015},{k}\nSYNC\n" for k in range(20_000))
    done("t.img", "format", "40", "480", "4", "16")
    it = subprocess.Popen([PROGRAM, "t.img", "stream", *FILES], stdout=subprocess.PIPE, stderr=subprocess.DEVNULL)
    rest = 40 + round_number % 40
    printed = b""
    while rest and (piece := os.read(it.stdout.fileno(), 1 << 12)):
        printed, rest = printed + piece, rest - 1
    it.kill()
    printed += it.stdout.read()
    it.wait()
    lines = [line.split() for line in printed.decode().split("\n")[:-1]]
    told = max((int(line[1]) for line in lines if line[2:] == ["DURABLE"]), default=0)
    last = int(done("t.img", "recover").split()[1])
    if last < told:
        sys.exit(f"kill {round_number}: {told} was printed as durable, and the image recovers to {last}")
    return len(lines) if told and lines[-1][0] != "last" else 0


def timed(command):
    """The seconds of a command on the big image; when its first line came; the part of its lines in the first three quarters."""
    shutil.copy("big.img", "t.img")
    begun = time.perf_counter()
    it = subprocess.Popen([PROGRAM, "t.img", command, *FILES], stdout=subprocess.PIPE, stderr=subprocess.DEVNULL, bufsize=0)
    pieces = []
    while piece := os.read(it.stdout.fileno(), 1 << 16):
        pieces.append((time.perf_counter() - begun, piece.count(b"\n")))
    if it.wait():
        sys.exit(f"{command}: status {it.returncode}")
    whole = time.perf_counter() - begun
    early = sum(count for at, count in pieces if at < 0.75 * whole)
    return whole, pieces[0][0], early / sum(count for _, count in pieces)


def main():
    rounds = int(sys.argv[1]) if len(sys.argv) > 1 else 200
    with tempfile.TemporaryDirectory(dir="/dev/shm") as room:
        os.chdir(room)
        for number in range(rounds):
            judge(number)
        print(f"{rounds} streams of four files: the audit says yes to each")
        lines = [kill(number) for number in range(rounds)]
        print(f"{sum(map(bool, lines))} of {rounds} streams killed while they printed, behind {statistics.median(lines):.0f} lines: each image recovers to what was printed as durable")
        write_files(1, 1000, 80_000, 4)
        done("big.img", "format", "1000", "12000", "4", "256")
        ran, streamed = [], []
        for _ in range(5):
            ran.append(timed("run"))
            streamed.append(timed("stream"))
        run, stream = (statistics.median(it[0] for it in them) for them in (ran, streamed))
        print(f"four files of 80,000 requests: run {run:.3f} s, stream {stream:.3f} s, {stream / run:.2f} times")
        print(f"the first line of a stream after {1000 * statistics.median(it[1] for it in streamed):.0f} ms; "
              f"{100 * statistics.median(it[2] for it in streamed):.0f} of 100 lines in the first three quarters of its time")


main()
