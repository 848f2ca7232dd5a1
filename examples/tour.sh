#!/usr/bin/env bash
# A tour: makes an image, runs requests on it, kills a long run in its middle, recovers what is left, and audits a run.
#
#     examples/tour.sh [FOLDER]     leaves tour.img in FOLDER, or here
#
# The first use proves and builds the program, which takes minutes.
set -eu
here=$(cd "$(dirname "$0")" && pwd)
dude=$here/../dude
cd "${1:-.}"

# Shows a command, and runs it.
show() {
  echo
  echo "\$ dude $*"
  "$dude" "$@"
}

# The greatest number that a run told as durable, in the file of its standard error.
last_durable() { sed -n 's/^durable //p' "$1" | tail -n 1; }

echo "A new image: 1,000 subscribers, room for 12,000 call forwardings, and four log rings of 256 cells each."
echo "Each number N that is told as 'durable N' on standard error is safe from then on."
show tour.img format 1000 12000 4 256

echo
echo "A file with each kind of request. A request that writes gets the next number; one that reads shows the number up to"
echo "which it read. SYNC waits until all before it is durable."
show tour.img run "$here/every.csv"

echo
echo "Nine updates, three with a SYNC behind each and six without. Six lines are told: the number that the image is opened"
echo "with, one at each SYNC, one behind the eighth request, where the thread of a file takes a turn and persists what has"
echo "committed, and one at the end. So the six updates are two bundles of the log, of two and of four."
show tour.img run "$here/bundles.csv"

echo
echo "Two files as a stream: each reply is printed as soon as its thread has it, behind the number of its file."
show tour.img stream "$here/every.csv" "$here/bundles.csv"

echo
echo "The first subscriber's rows now. The dump has all tables as CSV, and the number that it stands for at the end."
"$dude" tour.img dump 2> /dev/null | awk -F , '$2 == 1 || $1 == "LAST"'

echo
echo "A generated load: 2,000 requests and a SYNC for each of four files, each file on a thread of its own. For each kind of"
echo "request it shows how many there were, and how many were answered OK, NONE, NOFAC, DUP and FULL. No two files share a"
echo "subscriber, so that is the same in each run, in whatever order the threads come."
show tour.img drive 1 2000 4 2> tour.told
echo "up to number $(last_durable tour.told) all is durable"

echo
echo "A long load, killed in its middle, once it has told its third number. It leaves half-done work in the image, and"
echo "prints no summary."
: > tour.told
"$dude" tour.img drive 2 99999 4 > tour.out 2> tour.told &
run=$!
while [ "$(grep -c '^durable ' tour.told)" -lt 3 ] && kill -0 "$run" 2> /dev/null; do sleep 0.01; done
kill -KILL "$run" 2> /dev/null || true
wait "$run" 2> /dev/null || true
told=$(last_durable tour.told)
echo "the last line it told: durable $told; bytes of its output: $(stat -c %s tour.out)"

echo
echo "Recovery puts the records of the log over the tables, up to the last number before a gap."
show tour.img recover | tee tour.out
number=$(sed -n 's/^last //p' tour.out)
if [ "$number" -lt "$told" ]; then
  echo "this must not be: $told was told as durable" >&2
  exit 1
fi
echo "$told was told as durable, and the image recovered to $number"

echo
echo "The image goes on from there: a new run takes the numbers over $number."
cp tour.img tour.copy
show tour.img run "$here/first.csv" | tee tour.out

echo
echo "An audit of that run: a copy of the image from before it, what it printed, and its file. It only reads the copy."
sed 1,2d tour.out > tour.printed
show tour.copy audit tour.printed "$here/first.csv"
rm -f tour.out tour.told tour.copy tour.printed
