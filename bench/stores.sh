#!/usr/bin/env bash
# Times other stores at the load of `drive 1 20000 4` on 1,000 subscribers, in a folder on a disk and in memory: SQLite,
# LMDB, RocksDB and Berkeley DB, each set to sync what it commits. Once each request is a transaction, so that each change
# is synced before the next request; and once 256 changes, with the requests between them, are one. Prints requests a second
# and syncs a change. Outside the gate. Needs gcc, g++, and Debian's libsqlite3-dev, liblmdb-dev, librocksdb-dev and
# libdb-dev.
#
#     bench/stores.sh [--csv FILE] [--rounds N] [FOLDER [MEMORY [PROGRAM]]]
#         FOLDER on a disk, or here; MEMORY one in memory, or /dev/shm
#         PROGRAM whose answers to the load are compared, or crates/dude/out/dude where that is built
#         --csv appends a line for each figure to FILE; bench/figures.sh has its fields
#
# A store is a program of bench/stores. It opens a new store, puts the population in, reads all requests, and is timed from
# the first request to the end of the last commit; the median of five runs, or of N. A round takes each store in turn. After
# each run its rows have to be those that bench/recover.py gets, and its answers those that PROGRAM counts. The load fills
# no table, so the limit of call rows isn't kept. A store carries the requests out one after another; PROGRAM runs each file
# on a thread. As no two files share a subscriber, that leaves the same rows and answers. Syncs are counted in runs of their
# own, less those of a load without requests.
set -euo pipefail
shopt -s inherit_errexit
top=$(cd "$(dirname "$0")/.." && pwd)
. "$top/bench/figures.sh"
read_options "$@"
folder=${words[0]:-.} memory=${words[1]:-/dev/shm} program=${words[2]:-}
subscribers=1000 count=20000 files=4
stores=(sqlite lmdb rocksdb berkeley)
room='' tools=$(mktemp -d)
trap 'rm -rf "$tools" ${room:+"$room"}' EXIT
sources=$top/bench/stores

# Names the packages that are missing.
demand_packages() {
  local pair missing=()
  for pair in sqlite3.h:libsqlite3-dev lmdb.h:liblmdb-dev rocksdb/db.h:librocksdb-dev db.h:libdb-dev; do
    g++ -E -x c++ -include "${pair%:*}" /dev/null > /dev/null 2>&1 || missing+=("${pair#*:}")
  done
  [ "${#missing[@]}" -eq 0 ] || { echo "missing: apt-get install ${missing[*]}" >&2; exit 1; }
}

build() {
  local name c=(gcc -std=gnu11 -O2 -Wall -Wextra -Werror)
  for name in main rows sqlite lmdb berkeley; do "${c[@]}" -c -o "$tools/$name.o" "$sources/$name.c"; done
  g++ -std=c++17 -O2 -Wall -Wextra -Werror -c -o "$tools/rocksdb.o" "$sources/rocksdb.cc"
  gcc -o "$tools/sqlite" "$tools/main.o" "$tools/sqlite.o" -lsqlite3
  gcc -o "$tools/lmdb" "$tools/main.o" "$tools/rows.o" "$tools/lmdb.o" -llmdb
  gcc -o "$tools/berkeley" "$tools/main.o" "$tools/rows.o" "$tools/berkeley.o" -ldb
  g++ -o "$tools/rocksdb" "$tools/main.o" "$tools/rows.o" "$tools/rocksdb.o" -lrocksdb
}

# Has the program carry the load out. Its image has to hold the database that bench/recover.py gets, and its dump has to have
# as many rows as the stores; its summary is what each of them has to answer.
ask_program() {
  local image=$tools/tatp.img
  "$program" "$image" format "$subscribers" "$((12 * subscribers))" "$files" 256 > /dev/null 2>&1
  cp "$image" "$tools/before.img"
  "$program" "$image" drive 1 "$count" "$files" > "$tools/expected" 2> "$tools/told"
  python3 "$top/bench/recover.py" --ended "$tools/before.img" "$image" "$tools/told" drive 1 "$count" "$files" > "$tools/judged"
  "$program" "$image" dump 2> /dev/null | cut -d , -f 1 | uniq -c | awk '$2 != "LAST" { print $1 }' > "$tools/dumped"
  # The stores have the numbers as a table of its own, table 1, which is no part of a dump.
  cut -d ' ' -f 1 "$tools/final" | grep -v 1 | uniq -c | awk '{ print $1 }' | cmp - "$tools/dumped"
  echo "$program: told, recovered to, and numbers void: $(cat "$tools/judged"); with $(paste -sd ' ' "$tools/dumped") rows"
}

# Runs a store in a new folder, by way of a command if one is given behind the three words.
run_store() {
  local store=$1 changes=$2 requests=$3
  shift 3
  rm -rf "$room/store"
  mkdir "$room/store"
  "$@" "$tools/$store" "$room/store" "$tools/rows" "$requests" "$changes" "$room/final" "$room/summary"
}

# Whether the store's last run did what the others do.
expect_same() {
  cmp "$tools/final" "$room/final" || { echo "$1 leaves other rows" >&2; exit 1; }
  [ -e "$tools/expected" ] || cp "$room/summary" "$tools/expected"
  diff "$tools/expected" "$room/summary" >&2 || { echo "$1 answers otherwise" >&2; exit 1; }
}

# One round of a store: its name, its requests and its changes stand in $room/told.STORE.CHANGES, its microseconds in a file.
round() {
  run_store "$1" "$2" "$tools/requests" > "$room/told.$1.$2"
  expect_same "$1"
  cut -f 2 "$room/told.$1.$2" >> "$room/times.$1.$2"
}

# Prints what the rounds of a store gave.
tell() {
  local store=$1 changes=$2 micros name requests made rate syncs opening told='' commit='a commit for each change'
  IFS=$'\t' read -r name _ requests made < "$room/told.$store.$changes"
  micros=$(median "$room/times.$store.$changes")
  rate=$((requests * 1000000 / micros))
  opening=$(run_store "$store" "$changes" /dev/null trace_syncs "$room")
  syncs=$(run_store "$store" "$changes" "$tools/requests" trace_syncs "$room")
  [ -z "$syncs" ] || syncs=$((syncs - opening))
  [ -z "$syncs" ] || told=", $(ratio "$syncs" "$made") syncs a change ($syncs of $made)"
  [ "$changes" -eq 1 ] || commit="$changes changes a commit"
  echo "  $name, $commit: $((micros / 1000)) ms, $rate requests a second$told"
  add_figures "$csv" "$where" "$name" "$subscribers" "$files" "$count" "$changes" "$rate" "$(ratio "$syncs" "$made")"
}

demand_packages
build
python3 "$sources/load.py" "$tools" "$subscribers" 1 "$count" "$files"
[ -n "$program" ] || [ ! -x "$top/crates/dude/out/dude" ] || program=$top/crates/dude/out/dude
if [ -n "$program" ]; then
  ask_program
else
  echo "no program: the stores' answers are compared with one another alone"
fi
begin_figures "$csv" "$folder" "$memory"
for where in disk memory; do
  place=$folder
  [ "$where" = disk ] || place=$memory
  room=$(mktemp -d "$place/bench.XXXXXX")
  echo "$place ($(file_system "$place")), load $(cut -d ' ' -f 1 /proc/loadavg):"
  for ((turn = 0; turn < rounds; turn++)); do
    for store in "${stores[@]}"; do
      round "$store" 1
      round "$store" 256
    done
  done
  for changes in 1 256; do
    for store in "${stores[@]}"; do tell "$store" "$changes"; done
  done
  rm -rf "$room"
  room=
done
