#!/usr/bin/env bash
# Audits what `run` printed. First the audits of long runs are timed: generated loads of 10,000, 100,000 and 800,000 requests in
# eight files, those of `drive 1`, on an image of 10,000 subscribers. Of each: seconds of the audit, of `recover` on the same
# image and of reading the files, the peak memory, and its bytes for each request without the printed text. Each audit has to
# say yes, to leave the image as it is, and to name the line of a reply that was changed.
#
# Then come RUNS short runs of four files, each file on a thread of its own, half of them on few subscribers, so that their
# requests meet, and half of them on images with an index. Each third one has 32 frames over an image of 72 pages or more, so
# that pages come and go; some have few locks. A run
# begins with the image that the one before it left, and is audited on a copy from before: each audit has to say yes. Numbers
# that are void are counted from what a run prints: of the numbers over the first one told, up to `last`, those that no request
# has that wrote. Nothing that is printed tells whether a page was brought into a frame, whether another one had to leave it,
# or whether a thread set the rest of its file aside after many refusals. So further short runs are made under valgrind's
# callgrind, which counts calls, by the names of functions that stand in the program: of the one that reads a page to bring it
# in (`read_page`, but for the pages that are read when the threads are through), and of the one that runs behind the threads
# what they set aside (`plain`; it is called once a run, so runs are counted there and not files), and of the one that takes a
# frame from a page (`evict`; another thread may have pinned it meanwhile, so it is counted how often it is tried). Where a build has no
# function of a name, it is said that this can't be seen. Under callgrind one thread runs at a time, so these counts say that
# such things happen and are audited well, not how often they do. A request is set aside only after 64 numbers drawn in vain or
# a million refusals, which comes seldom by itself: so in a last run one sync takes a minute (faults/failing.c), and the other
# threads are refused the turn meanwhile. The script fails where a count is 0.
#
# Outside the gate. Needs a program that is built, and valgrind and a C compiler for the counts of calls.
#
#     bench/audit.sh [FOLDER [PROGRAM [RUNS [COUNTED]]]]
#         FOLDER to work in, or /dev/shm; PROGRAM a path, or crates/dude/out/dude
#         RUNS short runs, or 1000, and COUNTED ones under callgrind, or 30; with RUNS 0 the long runs alone
set -euo pipefail
top=$(cd "$(dirname "$0")/.." && pwd)
folder=${1:-/dev/shm} program=$(readlink -f "${2:-$top/crates/dude/out/dude}") runs=${3:-1000} counted=${4:-30}
[ -x "$program" ] || { echo "no program: $program; ./dude --version builds it" >&2; exit 1; }
room=$(mktemp -d "$folder/audit.XXXXXX")
trap '[ -e "$room/wrong" ] || rm -rf "$room"' EXIT
python3 - "$top/bench" "$room" "$program" << 'RUN'
import shutil, subprocess, sys, time

bench, room, program = sys.argv[1:]
sys.path[:0] = [bench, bench + "/stores"]
import load, recover

FILES, SUBSCRIBERS = 8, 10000


# A process of its own starts each command, since a child's peak begins with that of who starts it: some 15 MB here.
START = """
import os, subprocess, sys, time
start = time.perf_counter()
child = subprocess.Popen(sys.argv[1:], stdin=subprocess.DEVNULL)
_, status, usage = os.wait4(child.pid, 0)
open("used", "w").write(f"{os.waitstatus_to_exitcode(status)} {time.perf_counter() - start} {usage.ru_maxrss * 1024}")
"""


def ran(image, *words, out="out"):
    """The status, the seconds and the peak resident bytes of a command; its output goes to a file of the folder."""
    with open(f"{room}/{out}", "wb") as to, open(f"{room}/told", "wb") as told:
        subprocess.run([sys.executable, "-c", START, program, f"{room}/{image}", *words], cwd=room, stdout=to, stderr=told, check=True)
    status, seconds, memory = bytes_of("used").split()
    return int(status), float(seconds), int(memory)


def must(wanted, what, image, *words, out="out"):
    status, seconds, memory = ran(image, *words, out=out)
    if status != wanted:
        sys.exit(f"{what}: status {status}, {open(f'{room}/told', errors='replace').read()[-200:]}")
    return seconds, memory


def bytes_of(name):
    with open(f"{room}/{name}", "rb") as file:
        return file.read()


def write_files(count):
    names = []
    for at, requests in enumerate(recover.files_of(["drive", "1", str(count), str(FILES)], SUBSCRIBERS)):
        names.append(f"f{at}")
        with open(f"{room}/f{at}", "w") as file:
            file.writelines(load.text_of(request) + "\n" for request in requests)
    return names


def one_changed():
    """The printed run with one character changed in the last reply that has data, and the number of that line."""
    lines = bytes_of("printed").decode().split("\n")
    at = max(k for k, line in enumerate(lines) if " OK " in line)
    lines[at] = lines[at].replace("OK", "OQ", 1)
    with open(f"{room}/changed", "w") as file:
        file.write("\n".join(lines))
    return at + 1


print("requests  audit s  recover s  reading s  peak MB  bytes a request  text MB")
for count in (1249, 12499, 99999):
    names = write_files(count)
    total = FILES * (count + 1)
    must(0, "format", "before", "format", str(SUBSCRIBERS), str(12 * SUBSCRIBERS), str(FILES), "256")
    shutil.copy(f"{room}/before", f"{room}/after")
    must(0, "run", "after", "run", *names, out="printed")
    image = bytes_of("before")
    audits = sorted(must(0, "audit", "before", "audit", "printed", *names) for _ in range(3))
    if bytes_of("out") != b"yes\n" or bytes_of("before") != image:
        sys.exit("the audit didn't say yes, or changed the image")
    line = one_changed()
    must(10, "audit of a changed run", "before", "audit", "changed", *names)
    if bytes_of("told").decode().splitlines()[-1] != f"audit line {line}":
        sys.exit(f"another line than {line} was named")
    shutil.copy(f"{room}/before", f"{room}/opened")
    opened = sorted(must(0, "recover", "opened", "recover") for _ in range(3))
    start = time.perf_counter()
    text = len(bytes_of("printed"))
    for name in names:
        bytes_of(name)
    reading = time.perf_counter() - start
    peak = audits[1][1]
    print(f"{total:8} {audits[1][0]:8.2f} {opened[1][0]:10.2f} {reading:10.3f} {peak / 1e6:8.1f} {(peak - text) / total:16.0f} {text / 1e6:8.1f}")
RUN
[ "$runs" -gt 0 ] || exit 0
rm -rf "${room:?}"/*
python3 - "$room" "$program" "$top/bench" "$runs" "$counted" << 'SHORT'
import os, random, re, shutil, subprocess, sys

room, program, bench, runs, counted = *sys.argv[1:4], *map(int, sys.argv[4:])
os.chdir(room)
FILES, REQUESTS = 4, 300
# The sizes of the images: one of few subscribers, one of many, and one of more pages than frames.
SIZES = {"few": (4, 48, 4, 16), "many": (100, 1200, 4, 64), "wide": (40, 480, 4, 16)}
# What stands behind the name of an image with an index.
INDEXED = "-indexed"
# How often each kind of request comes, by its place below: mostly updates, since two that meet may void a number.
MIX = [0, 1, 2, 3, 3, 4, 4, 4, 5, 5, 5, 6, 7, 7]
WRITES = {"UPDATE_SUBSCRIBER_DATA", "UPDATE_LOCATION", "INSERT_CALL_FORWARDING", "DELETE_CALL_FORWARDING"}
# What is counted: the function whose calls it is, and a caller whose calls are no such thing.
COUNTED = {
    "pages brought in": ("stm_slots::known_back::read_page", "run_threads::"),
    "calls that put a page out": ("tiny_stm::entries::evict", None),
    "runs with files set aside": ("dude_engine::one_thread::plain", None),
}


class Run:
    """A short run: its image, its options, and how many subscribers its requests name."""

    def __init__(self, index):
        self.index = index
        self.is_few = index % 2 == 0
        kind = "wide" if index % 3 == 0 else "few" if self.is_few else "many"
        self.image = kind + INDEXED * (index // 6 % 2)
        self.subscribers = 2 + index % 3 if self.is_few else SIZES[kind][0]
        locks = [None, 4, 64][index // 6 % 3]
        self.options = ["--frames", "32"] * (kind == "wide") + ["--locks", str(locks)] * (locks is not None)

    def requests(self, draw):
        """The text of a file."""
        for _ in range(REQUESTS):
            s, kind, start, end = 1 + draw(self.subscribers), 1 + draw(4), 8 * draw(3), 1 + draw(24)
            yield {
                0: f"GET_SUBSCRIBER_DATA,{s}",
                1: f"GET_NEW_DESTINATION,{s},{kind},{start},{end}",
                2: f"GET_ACCESS_DATA,{s},{kind}",
                3: f"UPDATE_SUBSCRIBER_DATA,{s},{draw(2)},{kind},{draw(256)}",
                4: f"INSERT_CALL_FORWARDING,{s:015},{kind},{start},{end},{draw(10**6):015}",
                5: f"DELETE_CALL_FORWARDING,{s:015},{kind},{start}",
                6: "SYNC" if draw(4) == 0 else f"GET_SUBSCRIBER_DATA,{s}",
                7: f"UPDATE_LOCATION,{s:015},{draw(2**32)}",
            }[MIX[draw(len(MIX))]]

    def write_files(self):
        generator = random.Random(self.index)
        files = [list(self.requests(generator.randrange)) for _ in range(FILES)]
        for file, requests in enumerate(files):
            with open(f"f{file}", "w") as to:
                to.writelines(request + "\n" for request in requests)
        return files


def stop(why):
    """Ends, and leaves the folder as it is."""
    open("wrong", "w").close()
    sys.exit(f"WRONG: {why}. What is left stands in {room}")


def call(*words, under=(), given=None):
    """The output and what was told; the program has to end with 0."""
    ran = subprocess.run([*under, program, *words], stdin=subprocess.DEVNULL, capture_output=True, text=True, env=given and os.environ | given)
    if ran.returncode:
        stop(f"{' '.join(words)}: status {ran.returncode}, {ran.stderr[-300:]}")
    return ran.stdout, ran.stderr


def make_images():
    """An image of each size, without what the file has behind the image, so that it is soon copied and read."""
    for kind, sizes in SIZES.items():
        for name, command in (kind, "format"), (kind + INDEXED, "xformat"):
            call(name, command, *map(str, sizes))
            with open(name, "r+b") as file:
                pages = int.from_bytes(file.read(56)[48:], "little")
                file.truncate(8 * (16 + 8 * sizes[2] * sizes[3] + 64 * pages))
            if kind == "wide" and pages <= 32:
                stop("all pages of the wide image fit into its frames")


def void_in(printed, told, files):
    """How many numbers no request has that wrote, of those over the first one told up to the last one."""
    lines = printed.splitlines()
    requests = [request for requests in files for request in requests]
    if len(lines) != len(requests) + 1 or not lines[-1].startswith("last "):
        stop("the run didn't print a line for each request")
    written = {int(line.split()[0]) for line, request in zip(lines, requests)
               if request.split(",")[0] in WRITES and line.split()[1] == "OK"}
    first, last = int(re.search(r"^durable (\d+)$", told, re.M)[1]), int(lines[-1][5:])
    if written and not first < min(written) <= max(written) <= last:
        stop("a request has a number beyond those of the run")
    return last - first - len(written)


def make(run, under=(), given=None):
    """Makes a run, with these words in its environment, and audits it; how many of its numbers were void."""
    files = run.write_files()
    names = [f"f{file}" for file in range(FILES)]
    shutil.copy(run.image, "before")
    printed, told = call(run.image, "run", *run.options, *names, under=under, given=given)
    with open("printed", "w") as to:
        to.write(printed)
    said, _ = call("before", "audit", "printed", *names)
    if said != "yes\n":
        stop(f"the audit of run {run.index} said {said}")
    return void_in(printed, told, files)


def calls_in(name, function, caller):
    """How often a function was called, but by such a caller, in callgrind's file."""
    calls, by, is_next = 0, "", False
    with open(name, errors="replace") as file:
        for line in file:
            if line.startswith("fn="):
                by = line[3:]
            elif line.startswith("cfn="):
                is_next = re.match(rf"{function}\b", line[4:]) and not (caller and re.match(caller, by))
            elif line.startswith("calls=") and is_next:
                calls += int(line[6:].split()[0])
    return calls


def count_calls():
    """Tells what callgrind counts in further runs, and whether none of it is 0."""
    names = subprocess.run(["nm", program], capture_output=True, text=True).stdout
    seen = {what: how for what, how in COUNTED.items() if re.search(rf" {how[0]}\b", names)}
    sums = dict.fromkeys(seen, 0)
    under = ["valgrind", "--tool=callgrind", "-q", "--compress-strings=no", "--callgrind-out-file=calls", "--fair-sched=yes"]
    late = {"LD_PRELOAD": f"{room}/failing.so", "FAULT_KIND": "sync", "FAULT_CALL": "20", "FAULT_WAIT": "60000"}
    subprocess.run(["cc", "-O2", "-shared", "-fPIC", "-o", "failing.so", f"{bench}/faults/failing.c"], check=True)
    for index in range(counted + 1):
        make(Run(3 * (runs + index)), under, late if index == counted else None)
        for what, how in seen.items():
            sums[what] += calls_in("calls", *how)
    print(f"{counted} short runs under callgrind, 32 frames over more pages, and one with a late sync: each audit said yes")
    for what, (function, _) in COUNTED.items():
        print(f"  {what}: {sums[what] if what in seen else 'not to be seen in this build'} (calls of {function})")
    return all(sums.values())


make_images()
void = with_void = 0
for index in range(runs):
    lost = make(Run(index))
    void, with_void = void + lost, with_void + (lost > 0)
print(f"{runs} short runs of {FILES} files of {REQUESTS} requests: each audit said yes; {void} numbers were void, in {with_void} runs")
met = void > 0
if counted and shutil.which("valgrind"):
    met = count_calls() and met
else:
    print("pages brought in, evictions and files set aside weren't counted, for want of valgrind")
if not met:
    sys.exit("WRONG: a count is 0, so these runs hardly met")
SHORT
