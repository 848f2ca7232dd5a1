#!/usr/bin/env bash
# Times `format` and `recover` of the largest image in a folder on a disk and in memory, beside one raw write and sync of
# the words that each of them puts. Outside the gate. Needs the built program, with the commands `format` and `recover`.
#
#     bench/images.sh [FOLDER [MEMORY]]     a folder on a disk, or here; one in memory, or /dev/shm
#
# `format` puts all words of the image, `recover` those of the home and the mark. The raw write puts the same bytes into
# the same places of a file of the same size and then makes one fdatasync: once by one call for all that lie side by side,
# and once by a call for each line of 64 bytes, which is the piece that a medium takes. It is a C program, made with cc,
# and is timed from the first call to the last one. A command is timed from its start to its end, with all that it reads, and so is the opening of the
# file alone, by a command that is no command. Each is the median of seven rounds; a round takes all of them in turn. The
# file has 33,554,432 bytes, as the program makes it, and then only those of the image. On a busy machine run it as
# `chrt -f 10 bench/images.sh`, which few other programs then interrupt.
set -euo pipefail
shopt -s inherit_errexit
top=$(cd "$(dirname "$0")/.." && pwd)
program=$top/crates/dude/out/dude
[ -x "$program" ] || { echo "build it first: ./dude --version" >&2; exit 1; }
# As the script `dude` does.
export GLIBC_TUNABLES=${GLIBC_TUNABLES:+$GLIBC_TUNABLES:}glibc.malloc.hugetlb=1:glibc.malloc.mmap_max=0:glibc.malloc.arena_max=1
room= tools=$(mktemp -d)
trap 'rm -rf "$tools" ${room:+"$room"}' EXIT

# write FROM TO PIECE OFFSET COUNT [OFFSET COUNT]..: writes these bytes of one file into the same places of another, in
# pieces of so many bytes, syncs once, and prints the microseconds.
cc -O2 -D_FILE_OFFSET_BITS=64 -o "$tools/write" -x c - << 'WRITE'
#include <fcntl.h>
#include <stdio.h>
#include <stdlib.h>
#include <time.h>
#include <unistd.h>
int main(int count, char **words) {
    int from = open(words[1], O_RDONLY), to = open(words[2], O_RDWR);
    size_t size = lseek(from, 0, SEEK_END), piece = atol(words[3]);
    char *bytes = malloc(size);
    struct timespec start, end;
    if (from < 0 || to < 0 || pread(from, bytes, size, 0) != (ssize_t)size || fsync(to)) return 1;
    clock_gettime(CLOCK_MONOTONIC, &start);
    for (int k = 4; k + 1 < count; k += 2) {
        size_t at = atol(words[k]), stop = at + atol(words[k + 1]);
        while (at < stop) {
            ssize_t done = pwrite(to, bytes + at, stop - at < piece ? stop - at : piece, at);
            if (done <= 0) return 1;
            at += done;
        }
    }
    if (fdatasync(to)) return 1;
    clock_gettime(CLOCK_MONOTONIC, &end);
    printf("%.0f\n", 1e6 * (end.tv_sec - start.tv_sec) + 1e-3 * (end.tv_nsec - start.tv_nsec));
}
WRITE

# Times all rounds on a file of so many bytes, and prints a line for each command.
time_rounds() {
  python3 - "$tools" "$room" "$program" "$1" << 'RUN'
import os, statistics, subprocess, sys, time

tools, room, program, size = sys.argv[1], sys.argv[2], sys.argv[3], int(sys.argv[4])
subscribers, calls, rings, cells, rounds = 10000, 120000, 16, 4096, 7
image, raw = room + "/tatp.img", room + "/raw.img"
home = 16 + 8 * rings * cells
words = home + 1140096


def command(status, *rest):
    start = time.perf_counter()
    child = subprocess.run([program, image, *rest], stdin=subprocess.DEVNULL, capture_output=True)
    taken = time.perf_counter() - start
    if child.returncode != status:
        sys.exit("%s: status %d\n%s" % (" ".join(rest), child.returncode, child.stderr.decode()))
    return taken


def write(piece, ranges):
    words = [str(number) for pair in ranges for number in pair]
    child = subprocess.run([tools + "/write", image, raw, str(piece), *words], check=True, capture_output=True)
    return int(child.stdout) / 1e6


def form():
    return command(0, "format", str(subscribers), str(calls), str(rings), str(cells))


for name in image, raw:
    with open(name, "wb") as file:
        file.write(bytes(size))
        os.fsync(file.fileno())
form()
all_words = [(0, 8 * words)]
home_words = [(8 * home, 8 * (words - home)), (64, 64)]
timed = {
    "open": lambda: command(2, "nothing"),
    "format": form,
    "recover": lambda: command(0, "recover"),
    "all": lambda: write(size, all_words),
    "all by lines": lambda: write(64, all_words),
    "home": lambda: write(size, home_words),
    "home by lines": lambda: write(64, home_words),
}
times = {name: [] for name in timed}
for _ in range(rounds):
    for name, run in timed.items():
        times[name].append(run())
middle = {name: 1000 * statistics.median(list) for name, list in times.items()}
print("  a file of %d bytes: opened alone in %.1f ms" % (size, middle["open"]))
for name, puts, count in ("format", "all", words), ("recover", "home", words - home + 1):
    whole, lines = middle[puts], middle[puts + " by lines"]
    print("    %s: %.1f ms; its %d words in one piece %.1f ms (%.1f times), line by line %.1f ms (%.1f times)"
          % (name, middle[name], count, whole, middle[name] / whole, lines, middle[name] / lines))
RUN
}

for folder in "${1:-.}" "${2:-/dev/shm}"; do
  room=$(mktemp -d "$folder/bench.XXXXXX")
  echo "$folder ($(stat -f -c %T "$folder")), load $(cut -d ' ' -f 1 /proc/loadavg):"
  time_rounds 33554432
  time_rounds 13315200
  rm -rf "$room"
  room=
done
