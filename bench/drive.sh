#!/usr/bin/env bash
# Times generated loads, on new images with room for 12 call rows a subscriber and a ring of 256 cells for each file, in a
# folder on a disk and in memory: `drive 1 10000 F` and `drive 1 80000 F` for F = 1, 2 and 4 files, each on a thread of its
# own; `drive 1 80000 F` for F = 1 and 2 with a ring free, so that one thread more takes turns; and `drive 1 20000 4`, the load
# of bench/stores.sh, on 1,000 subscribers; and the last one on 100 and on 10,000, beside the rate at which that medium takes
# single lines of 64 bytes, each synced. Of each load: requests a second and how often they are those of one file, syncs a
# change and a second, the numbers that no request has, and the peak memory. A change is a request whose update got a number:
# the updates that the summary says were OK. Outside the gate. Needs programs that are built, with the commands `format`,
# `recover` and `drive`.
#
#     bench/drive.sh [--csv FILE] [--rounds N] [FOLDER [MEMORY [PROGRAM..]]]
#         FOLDER on a disk, or here; MEMORY one in memory, or /dev/shm
#         PROGRAM one or several, each a path or NAME=PATH, or crates/dude/out/dude
#         --csv appends a line for each figure to FILE; bench/figures.sh has its fields
#
# The time is that of `drive` less that of `recover` on the same image, the median of five runs, or of N, each on an image
# of its own, with the least and the greatest; where a run came out no slower than its recovery there is no figure. A round
# takes each program and each size in turn. A sync is an fdatasync or its like: those of all threads are counted
# by perf in five runs of their own, or N, and the median is told, with the least and the greatest; where there is no perf in
# one run by strace, which makes the threads slow. How many syncs there are, and how many numbers have no request, differs from
# run to run with the schedule of the threads; the numbers are those of one run. What a load answers doesn't differ, as no two
# files of it share a subscriber and no table gets full: programs and runs that don't all answer it alike are refused.
set -euo pipefail
shopt -s inherit_errexit
top=$(cd "$(dirname "$0")/.." && pwd)
. "$top/bench/figures.sh"
read_options "$@"
# As the script `dude` does. An opening differs less from run to run so.
export GLIBC_TUNABLES=${GLIBC_TUNABLES:+$GLIBC_TUNABLES:}glibc.malloc.hugetlb=1:glibc.malloc.mmap_max=0:glibc.malloc.arena_max=1
folder=${words[0]:-.} memory=${words[1]:-/dev/shm}
[ "${#words[@]}" -gt 2 ] || words=("$folder" "$memory" "yelmsker=$top/crates/dude/out/dude")
names=() programs=()
for word in "${words[@]:2}"; do
  name=${word//,/_} path=$word
  if [[ $word =~ $named ]]; then name=${word%%=*} path=${word#*=}; fi
  if ! [[ -f $path && -x $path ]]; then echo "no program: $path; ./dude --version builds this one's" >&2; exit 1; fi
  names+=("$name") programs+=("$(readlink -f "$path")")
done
room=
trap 'rm -rf ${room:+"$room"}' EXIT

# Runs a command, its output going to $room/out and what it told to $room/told. Prints microseconds and the peak resident
# kilobytes. What is below some 15,000 KB isn't told apart from the interpreter that starts it.
measure() {
  python3 - "$room" "$@" << 'RUN'
import os, subprocess, sys, time
room, words = sys.argv[1], sys.argv[2:]
with open(room + "/out", "wb") as out, open(room + "/told", "wb") as told:
    start = time.perf_counter()
    child = subprocess.Popen(words, stdin=subprocess.DEVNULL, stdout=out, stderr=told)
    _, status, usage = os.wait4(child.pid, 0)
    micros = int((time.perf_counter() - start) * 1e6)
status = os.waitstatus_to_exitcode(status)
if status != 0:
    with open(room + "/told", errors="replace") as told:
        sys.exit("%s: status %d\n%s" % (" ".join(words), status, "".join(told.readlines()[-3:])))
print(micros, usage.ru_maxrss)
RUN
}

# How many lines of 64 bytes a file takes in a second, each written in its place and synced.
lines_per_second() {
  python3 - "$1" << 'RUN'
import os, sys, time
file = os.open(sys.argv[1], os.O_RDWR)
lines = os.fstat(file).st_size // 64
os.fsync(file)
start, done = time.perf_counter(), 0
while time.perf_counter() < start + 2:
    os.pwrite(file, bytes([done % 256]) * 64, done % lines * 64)
    os.fdatasync(file)
    done += 1
print(int(done / (time.perf_counter() - start)))
RUN
}

# Makes tatp.img the new image of a case once more, recovered once, so that nothing of the copy is left to sync.
renew() {
  cp "$room/new.$1" "$room/tatp.img"
  measure "${programs[${1%.*}]}" "$room/tatp.img" recover > /dev/null
}

# Whether the last output is the summary of a load, each file of it served whole, and as by the programs before.
expect_whole() {
  local count=$1 files=$2 summary=$room/summary.$1.$2.$3
  awk -v files="$files" -v count="$count" '{ all += $2 } $1 == "SYNC" { syncs = $2 }
    END { exit !(NR == 8 && all == files * (count + 1) && syncs == files) }' "$room/out" ||
    { echo "this is no summary of $files files of $count requests:" >&2; cat "$room/out" >&2; exit 1; }
  [ -e "$summary" ] || cp "$room/out" "$summary"
  cmp -s "$summary" "$room/out" ||
    { echo "the programs answer the load otherwise:" >&2; diff "$summary" "$room/out" >&2; exit 1; }
}

# How many changes the last drive made: the updates that were OK.
changes() { awk '$1 ~ /^(UPDATE|INSERT|DELETE)_/ { made += $3 } END { print made + 0 }' "$room/out"; }

# How many numbers the last drive took: the last one told less the first one, that of the opening.
numbers() { awk '$1 == "durable" { last = $2; if (!told++) first = $2 } END { print last - first }' "$room/told"; }

# How many syncs a drive makes beyond those of a recovery, in the middle of so many runs as there are rounds, or in one that
# strace counts; nothing where they can't be counted. All of them stand in $room/syncs.
fences() {
  local key=$1 count=$2 files=$3 opening all turn
  local program=${programs[${key%.*}]}
  can_count || return 0
  : > "$room/syncs"
  for ((turn = 0; turn < rounds; turn++)); do
    renew "$key"
    opening=$(count_syncs "$room" "$program" "$room/tatp.img" recover)
    all=$(count_syncs "$room" "$program" "$room/tatp.img" drive 1 "$count" "$files")
    expect_whole "$count" "$files" "${key#*.}"
    echo $((all - opening)) >> "$room/syncs"
    perf_counts || break
  done
  median "$room/syncs"
}

# One round of a case, which is a program's index, a dot and a number of subscribers.
declare -A most times made void one
round() {
  local key=$1 count=$2 files=$3 base all
  local program=${programs[${key%.*}]}
  renew "$key"
  base=$(measure "$program" "$room/tatp.img" recover)
  all=$(measure "$program" "$room/tatp.img" drive 1 "$count" "$files")
  expect_whole "$count" "$files" "${key#*.}"
  made[$key]=$(changes)
  void[$key]=$(($(numbers) - ${made[$key]}))
  [ "${void[$key]}" -ge 0 ] || { echo "fewer numbers than changes" >&2; exit 1; }
  echo $((${all% *} - ${base% *})) >> "$room/times.$key"
  [ "${all#* }" -le "${most[$key]}" ] || most[$key]=${all#* }
}

milliseconds() { awk -v micros="$1" 'BEGIN { printf "%.1f", micros / 1000 }'; }

# Prints what the rounds of a case gave.
tell() {
  local key=$1 count=$2 files=$3 micros range syncs rate times_one= told="syncs not counted, for want of perf and strace"
  local name=${names[${key%.*}]}$beside subscribers=${key#*.}
  micros=$(median "$room/times.$key")
  sort -n -o "$room/times.$key" "$room/times.$key"
  range="$(milliseconds "$(sed -n 1p "$room/times.$key")") to $(milliseconds "$(sed -n '$p' "$room/times.$key")")"
  times[$key]=
  printf '  %s, %d subscribers, files %d, requests %d: ' "$name" "$subscribers" "$files" "$((files * count))"
  if [ "${range:0:1}" = - ] || [ "$micros" -le 0 ]; then
    echo "$range ms beyond a recovery, too short to tell"
    return
  fi
  times[$key]=$micros
  rate=$((files * count * 1000000 / micros))
  [ "$files" -gt 1 ] || one[$key.$count]=$rate
  [ "$files" -eq 1 ] || [ -z "${one[$key.$count]-}" ] || times_one=" ($(ratio "$rate" "${one[$key.$count]}") of one file's)"
  syncs=$(fences "$key" "$count" "$files")
  if [ -n "$syncs" ]; then
    sort -n -o "$room/syncs" "$room/syncs"
    told="$(ratio "$syncs" "${made[$key]}") syncs a change ($syncs of ${made[$key]};"
    told+=" $(sed -n 1p "$room/syncs") to $(sed -n '$p' "$room/syncs")),"
    told+=" $((syncs * 1000000 / micros)) syncs a second"
  fi
  echo "$(milliseconds "$micros") ms ($range) beyond a recovery, $rate requests a second$times_one, $told," \
    "${void[$key]} numbers void, peak ${most[$key]} KB"
  add_figures "$csv" "$where" "$name" "$subscribers" "$files" "$count" "" "$rate" "$(ratio "$syncs" "${made[$key]}")"
}

# Times the drive of so many requests a file and files on images of these numbers of subscribers, by all programs in turn,
# and prints a line for each. The images have a ring for each file, and so many more.
drive() {
  local count=$1 files=$2 rings=$(($2 + $3)) beside= keys=() key size program turn
  [ "$3" -eq 0 ] || beside=" with a ring free"
  for program in "${!programs[@]}"; do
    for size in "${@:4}"; do
      key=$program.$size
      most[$key]=0
      keys+=("$key")
      measure "${programs[program]}" "$room/new.$key" format "$size" "$((12 * size))" "$rings" 256 > /dev/null
      : > "$room/times.$key"
    done
  done
  for ((turn = 0; turn < rounds; turn++)); do
    for key in "${keys[@]}"; do round "$key" "$count" "$files"; done
  done
  for key in "${keys[@]}"; do tell "$key" "$count" "$files"; done
}

# How much longer the last drive took with the greatest database than with the least one, where both times were told.
growth() {
  local program more
  for program in "${!programs[@]}"; do
    more=$(ratio "${times[$program.$2]}" "${times[$program.$1]}")
    [ -z "$more" ] || echo "  ${names[program]}: with $2 subscribers the load takes $more times as long as with $1"
  done
}

begin_figures "$csv" "$folder" "$memory"
for where in disk memory; do
  place=$folder
  [ "$where" = disk ] || place=$memory
  room=$(mktemp -d "$place/bench.XXXXXX")
  echo "$place ($(file_system "$place")), load $(cut -d ' ' -f 1 /proc/loadavg):"
  for count in 10000 80000; do
    for files in 1 2 4; do drive "$count" "$files" 0 1000; done
  done
  for files in 1 2; do drive 80000 "$files" 1 1000; done
  drive 20000 4 0 1000
  drive 20000 4 0 100 10000
  growth 100 10000
  cp "$room/new.0.100" "$room/tatp.img"
  echo "  the medium itself: $(lines_per_second "$room/tatp.img") synced lines of 64 bytes a second"
  rm -rf "$room"
  room=
done
