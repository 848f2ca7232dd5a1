#!/usr/bin/env python3
"""delays.py [ROUNDS [PROGRAM [FOLDER]]]

Measures how long a reply takes to be printed, by the built program (crates/dude/out/dude, or PROGRAM) on an image in a folder
below FOLDER (/dev/shm): with `stream`, of one file and of four, and with `run`, which prints at its end.

A file has 10,000 times eight requests of the generated load on 1,000 subscribers, an update and a `SYNC`. The number of the
reply to a `SYNC` is told as durable on standard error before the reply is made. So the time from that write to the one that has
the line of the reply is no less than what the line took. `delays/writes.c` stands between the program and the C library, and
notes when each write ended; both streams are files.

Writes bench/delays.csv: for each command, of the lines of all ROUNDS (5), how long the first so many of a hundred took at most;
and draws docs/delays.svg. Prints the half and the slowest of a hundred. Ends with 1 where a line stands before its tell. Outside
the gate, for a machine that does nothing else: the first line of the figures has its load.
"""
import array
import bisect
import csv
import itertools
import math
import os
import shutil
import subprocess
import sys
import tempfile

HERE = os.path.dirname(os.path.abspath(__file__))
TOP = os.path.dirname(HERE)
sys.dont_write_bytecode = True
sys.path[:0] = [HERE, f"{HERE}/stores"]
from load import text_of
from picture import DARK, GREY, MARGIN, WIDTH, Drawing
from recover import load_of

COMMANDS = [("stream", 1), ("stream", 4), ("run", 4)]
SYNCS, BETWEEN = 10_000, 8
SIZES = ("1000", "12000", "4", "256")
SHARES = [0.1, 1, 2, 5, *range(10, 100, 5), 98, 99, 99.9, 100]
FIGURES, PICTURE = f"{HERE}/delays.csv", f"{TOP}/docs/delays.svg"

# The picture: the span of times in microseconds, its place and height, and the line of each command.
SHORTEST, LONGEST = 1, 10_000_000
LEFT, TOP_LINE, HEIGHT, LAST = 70, 60, 260, 40
COLOURS = {("stream", 1): "#6fa8dc", ("stream", 4): DARK, ("run", 4): GREY}
TIMES = {1: "1 µs", 10: "10 µs", 100: "100 µs", 1000: "1 ms", 10_000: "10 ms", 100_000: "100 ms", 1_000_000: "1 s", 10_000_000: "10 s"}


def machine(folder):
    """What the figures are measured on, with the kind of file system that a folder stands in."""
    with open("/proc/cpuinfo") as file:
        model = next((line.split(": ", 1)[1].strip() for line in file if line.startswith("model name")), "")
    kind = subprocess.run(["df", "--output=fstype", folder], stdout=subprocess.PIPE, check=True, text=True).stdout.split()[-1]
    return f"{os.cpu_count()} processors ({model}), Linux {os.uname().release.split('-')[0]}; {kind}; load {os.getloadavg()[0]:.1f} before"


def write_file(name, file, files):
    """Writes a request file with its `SYNC`s, each behind an update."""
    load = load_of(1, file, files, 1000, SYNCS * BETWEEN)
    with open(name, "w") as out:
        for index in range(SYNCS):
            some = itertools.islice(load, BETWEEN)
            out.writelines(f"{text_of(it)}\n" for it in some)
            out.write(f"UPDATE_LOCATION,{1 + file + files * (index % 100):015},{index}\nSYNC\n")


def lines_of(name, writes):
    """The lines of a file, each with the time at which the write ended that had its end."""
    ends, times = [], []
    for size, time in writes:
        ends.append(size + (ends[-1] if ends else 0))
        times.append(time)
    at = 0
    with open(name, "rb") as file:
        for line in file:
            at += len(line)
            yield line, times[bisect.bisect_left(ends, at)]


def delays_of(program, words):
    """How long each reply to a `SYNC` took from its tell to its line, in nanoseconds."""
    given = dict(os.environ, LD_PRELOAD=os.path.abspath("writes.so"), WRITES_NOTED="noted")
    with open("output", "wb") as out, open("told", "wb") as err:
        status = subprocess.run([program, "image", *words], stdin=subprocess.DEVNULL, stdout=out, stderr=err, env=given).returncode
    if status:
        sys.exit(f"{' '.join(words)}: status {status}")
    noted = array.array("q")
    with open("noted", "rb") as file:
        noted.frombytes(file.read(8))
        noted.frombytes(file.read(24 * noted[0]))
    writes = {stream: [] for stream in (1, 2)}
    for at in range(1, len(noted), 3):
        writes[noted[at]].append((noted[at + 1], noted[at + 2]))
    told = [(int(line.split()[1]), time) for line, time in lines_of("told", writes[2]) if line.startswith(b"durable ")]
    for line, time in lines_of("output", writes[1]):
        parts = line.split()
        if parts[-1] == b"DURABLE":
            yield time - told[bisect.bisect_left(told, (int(parts[-2]), 0))][1]


def measured(program, command, files, rounds):
    """The delays of a command's lines in all rounds, in order."""
    names = [f"{file}.csv" for file in range(files)]
    for file, name in enumerate(names):
        write_file(name, file, files)
    found = []
    for _ in range(rounds):
        shutil.copy("opening", "image")
        found += delays_of(program, [command, *names])
    return sorted(found)


def share_of(delays, share):
    """So many of a hundred took at most so many nanoseconds."""
    return delays[max(0, math.ceil(len(delays) * share / 100) - 1)]


def span(nanoseconds):
    """A time in words."""
    for unit, name in ((1_000_000_000, "s"), (1_000_000, "ms"), (1_000, "µs")):
        if nanoseconds >= unit:
            return f"{nanoseconds / unit:.3g} {name}"
    return f"{nanoseconds} ns"


def name_of(command, files):
    return f"{command}, {files} file" + ("s" if files > 1 else "")


def place(microseconds):
    """Where a time stands from left to right."""
    power = math.log10(min(max(microseconds, SHORTEST), LONGEST) / SHORTEST)
    return LEFT + (WIDTH - LEFT - LAST) * power / math.log10(LONGEST / SHORTEST)


def height(share):
    """Where a share stands from the top down."""
    return TOP_LINE + HEIGHT * (1 - share / 100)


def line_between(x1, y1, x2, y2):
    return f'<line x1="{x1:.1f}" y1="{y1:.1f}" x2="{x2:.1f}" y2="{y2:.1f}" stroke="#cccccc"/>'


def draw_frame(drawing):
    for share in range(0, 101, 25):
        drawing.parts.append(line_between(LEFT, height(share), WIDTH - LAST, height(share)))
        drawing.text(LEFT - 8, height(share) + 4, f"{share}%", 11, "end", fill="#333333")
    for time, words in TIMES.items():
        drawing.parts.append(line_between(place(time), height(100), place(time), height(0)))
        drawing.text(place(time), height(0) + 18, words, 11, "middle", fill="#333333")


def draw_command(drawing, at, key, figures):
    """Draws the line of a command, and its name with half and nearly all of its delays."""
    points = [(place(time), height(share)) for share, time in figures]
    path = " ".join(f"{x:.1f},{y:.1f}" for x, y in [(points[0][0], height(0)), *points])
    drawing.parts.append(f'<polyline points="{path}" fill="none" stroke="{COLOURS[key]}" stroke-width="2.5"/>')
    times = {share: span(1000 * time) for share, time in figures}
    words = f"{name_of(*key)}: half within {times[50]}, 99 of 100 within {times[99]}"
    y = height(0) + 42 + 20 * at
    drawing.parts.append(f'<rect x="{LEFT}" y="{y - 9}" width="22" height="8" fill="{COLOURS[key]}" stroke="#222222"/>')
    drawing.text(LEFT + 30, y, words)
    drawing.told.append(words)


def picture(told, figures):
    title = "Lines of replies that are out, by the time since the reply's number was told"
    drawing = Drawing(set())
    drawing.heading(title, 17)
    draw_frame(drawing)
    for at, (key, points) in enumerate(figures.items()):
        draw_command(drawing, at, key, points)
    drawing.y = height(0) + 42 + 20 * len(figures)
    caption = f"Replies to SYNC: {SYNCS:,} a file, each behind {BETWEEN} requests of the generated load and an update; 1,000 subscribers."
    for line in (caption, told):
        drawing.text(MARGIN, drawing.y, line, 12, fill="#333333")
        drawing.y += 16
    return drawing.whole(title)


def figures_in(name):
    """What the first line tells, and for each command the shares with their microseconds."""
    with open(name, newline="") as file:
        told, *lines = file.read().splitlines()
    figures = {}
    for line in csv.DictReader(lines):
        figures.setdefault((line["command"], int(line["files"])), []).append((float(line["share"]), float(line["microseconds"])))
    return told.lstrip("# "), figures


def write_figures(told, delays):
    with open(FIGURES, "w", newline="") as file:
        file.write(f"# {told}\n")
        out = csv.writer(file, lineterminator="\n")
        out.writerow(["command", "files", "lines", "share", "microseconds"])
        for (command, files), found in delays.items():
            out.writerows([command, files, len(found), share, f"{share_of(found, share) / 1000:.1f}"] for share in SHARES)


def main(words):
    rounds = int(words[0]) if words else 5
    program = os.path.abspath(words[1] if len(words) > 1 else f"{TOP}/crates/dude/out/dude")
    if not os.access(program, os.X_OK):
        sys.exit(f"no program: {program}; ./dude --version builds it")
    delays = {}
    with tempfile.TemporaryDirectory(dir=words[2] if len(words) > 2 else "/dev/shm") as room:
        os.chdir(room)
        told = machine(room)
        subprocess.run(["cc", "-O2", "-shared", "-fPIC", "-o", "writes.so", f"{HERE}/delays/writes.c"], check=True)
        subprocess.run([program, "opening", "format", *SIZES], stdout=subprocess.DEVNULL, stderr=subprocess.DEVNULL, check=True)
        for command, files in COMMANDS:
            found = delays[command, files] = measured(program, command, files, rounds)
            print(f"{name_of(command, files)}: {len(found):,} replies: half within {span(share_of(found, 50))}, 99 of 100 within {span(share_of(found, 99))}, all within {span(found[-1])}", flush=True)
            if found[0] < 0:
                sys.exit("a line stands before the tell of its number")
        os.chdir(TOP)
    write_figures(told, delays)
    with open(PICTURE, "w") as file:
        file.write(picture(*figures_in(FIGURES)))


if __name__ == "__main__":
    main(sys.argv[1:])
