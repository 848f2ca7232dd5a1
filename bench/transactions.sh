#!/usr/bin/env bash
# Runs transactions on threads by the program of `transaction_trial`, which compares their replies with those of one thread. A
# thousand short runs of four threads come first, on one to six subscribers and on few or many locks, so that transactions
# meet. Then it times the load of `drive 1 80000 F` for F = 1, 2 and 4 threads, on 1,000 and on 10,000 subscribers, beside the
# transactional memory in C of bench/volatile in the same run. Prints requests a second, how often they are those of one
# thread, and how often those in C. Ends with 1 where a run isn't as one thread, and where in all runs together no number was
# void, no try refused or no snapshot extended. Outside the gate. Needs gcc.
#
#     bench/transactions.sh [--minute] [--csv FILE] [--rounds N] [PROGRAM [DUDE]]
#         PROGRAM is crates/transaction_trial/out/transaction_trial, or another build of it
#         DUDE makes the images for the memory in C; or crates/dude/out/dude
#         --minute runs long files for a minute in place of the short runs, and times nothing
#         --csv appends a line for each figure to FILE; bench/figures.sh has its fields
#
# The time is from the start of the threads, in C from the first request, to the end of the last one; the median of five runs,
# or of N.
set -euo pipefail
shopt -s inherit_errexit
top=$(cd "$(dirname "$0")/.." && pwd)
. "$top/bench/figures.sh"
minute=
[ "${1-}" != --minute ] || { minute=yes; shift; }
read_options "$@"
program=${words[0]:-$top/crates/transaction_trial/out/transaction_trial}
dude=${words[1]:-$top/crates/dude/out/dude}
count=80000 locks=65536
[ -x "$program" ] || { echo "build it first: rt run in crates/transaction_trial" >&2; exit 1; }
room=$(mktemp -d -p /dev/shm)
trap 'rm -rf "$room"' EXIT
: > "$room/told"

# Runs the program with these words, and keeps what it tells. Its output has to be what it prints where all is well.
run() {
  local wanted="$2 threads, $(($2 * $3)) requests: as one thread" printed
  printed=$("$program" "$@" 2>> "$room/told") || true
  [ "$printed" = "$wanted" ] || { echo "WRONG: transaction_trial $*: '$printed'" >&2; exit 1; }
}

# Prints what the runs so far met, and fails where they didn't meet each of void numbers, refused tries and extensions.
say_met() {
  awk '{ for (k = 2; k <= 6; k++) sum[k] += $k }
    END {
      printf "%d runs, %d requests: %d numbers void, %d tries refused, %d snapshots extended, %d boxes full\n",
        NR, sum[2], sum[3], sum[4], sum[5], sum[6]
      exit !(sum[3] && sum[4] && sum[5])
    }' "$room/told" || { echo "WRONG: transactions hardly met" >&2; exit 1; }
}

some_locks=(4 64 65536)
if [ -n "$minute" ]; then
  for ((seed = 1; SECONDS < 60; seed++)); do run 4 4 99999 "$seed" "${some_locks[seed % 3]}" shared; done
  say_met
  exit
fi
for ((seed = 1; seed <= 1000; seed++)); do
  run "$((seed % 6 + 1))" 4 1000 "$seed" "${some_locks[seed % 3]}" shared
done
say_met

gcc -std=gnu11 -O2 -Wall -Wextra -Werror -pthread -o "$room/volatile" "$top"/bench/volatile/*.c
begin_figures "$csv" /dev/shm /dev/shm
for subscribers in 1000 10000; do
  "$dude" "$room/image" format "$subscribers" "$((12 * subscribers))" 4 256 > "$room/out" 2>&1
  one=
  for threads in 1 2 4; do
    : > "$room/times"
    : > "$room/times_in_c"
    for ((round = 0; round < rounds; round++)); do
      : > "$room/told"
      run "$subscribers" "$threads" "$count" 1 "$locks" apart
      cut -f 1 "$room/told" >> "$room/times"
      "$room/volatile" "$room/image" 1 "$count" "$threads" "$locks" > "$room/out" 2> "$room/told"
      cut -f 1 "$room/told" >> "$room/times_in_c"
    done
    rate=$((count * threads * 1000000 / $(median "$room/times")))
    in_c=$((count * threads * 1000000 / $(median "$room/times_in_c")))
    one=${one:-$rate}
    echo "$subscribers subscribers, $threads threads: $rate requests a second, $(ratio "$rate" "$one") of one thread's," \
      "$(ratio "$rate" "$in_c") of those in C"
    add_figures "$csv" memory transactions "$subscribers" "$threads" "$count" "" "$rate" ""
    add_figures "$csv" memory volatile "$subscribers" "$threads" "$count" "" "$in_c" ""
  done
done
