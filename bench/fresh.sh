#!/usr/bin/env bash
# Times `fresh 10000` with 100,000 reads and with 2,000 updates on a real file: requests per second, the syncs per
# second that the file system gives beside them, and the peak memory. Outside the gate. Needs the built program.
set -eu
top=$(cd "$(dirname "$0")/.." && pwd)
program=$top/crates/dude/out/dude
[ -x "$program" ] || { echo "build it first: ./dude --version" >&2; exit 1; }
folder=$(mktemp -d "${1:-.}/bench.XXXXXX")
trap 'rm -rf "$folder"' EXIT

awk 'BEGIN { for (i = 0; i < 100000; i++) printf "GET_SUBSCRIBER_DATA,%d\n", 1 + (i * 7919) % 10000 }' > "$folder/reads.csv"
awk 'BEGIN { for (i = 0; i < 2000; i++) printf "UPDATE_LOCATION,%015d,%d\n", 1 + (i * 7919) % 10000, i }' > "$folder/updates.csv"
: > "$folder/empty.csv"

# Runs a request file, and prints milliseconds and the peak resident kilobytes.
run() {
  local start end peak=0 seen pid
  start=$(date +%s%N)
  "$program" "$folder/tatp.img" fresh 10000 "$folder/$1" > "$folder/out" 2> "$folder/durable" &
  pid=$!
  while seen=$(awk '/VmHWM/ { print $2 }' "/proc/$pid/status" 2>/dev/null) && [ -n "$seen" ]; do
    peak=$seen
    sleep 0.02
  done
  wait "$pid"
  end=$(date +%s%N)
  echo "$(((end - start) / 1000000)) $peak"
}

# How many 64-byte writes, each synced, the file system takes in a second.
syncs() {
  local start end
  start=$(date +%s%N)
  dd if=/dev/zero of="$folder/sync" bs=64 count=500 oflag=dsync 2>/dev/null
  end=$(date +%s%N)
  echo $((500 * 1000000000 / (end - start)))
}

run empty.csv > /dev/null
read -r base memory <<< "$(run empty.csv)"
read -r reads reads_memory <<< "$(run reads.csv)"
read -r updates updates_memory <<< "$(run updates.csv)"
per_second() { echo $((1000 * $1 / ($2 > 0 ? $2 : 1))); }
echo "format of 10,000 subscribers: $base ms, peak $memory KB"
echo "100,000 reads: $((reads - base)) ms beyond it, $(per_second 100000 $((reads - base))) requests a second, peak $reads_memory KB"
# An update is fenced twice, and after each sixteen of them, when the ring is full, the home and the mark are fenced.
echo "2,000 updates: $((updates - base)) ms beyond it, $(per_second 2000 $((updates - base))) requests a second, $(per_second 4250 $((updates - base))) fences a second, peak $updates_memory KB"
echo "the file system: $(syncs) synced writes of 64 bytes a second"
