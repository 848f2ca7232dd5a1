#!/usr/bin/env bash
# Tries the built program by command lines, with what each has to leave: its status, its output, the last line on standard
# error, and files. What `main` does stands in no contract. Prints each that is wrong, and ends with 1 where one is.
#
#     bench/commands.sh [PROGRAM]     crates/dude/out/dude, or another build of it
set -u
top=$(cd "$(dirname "$0")/.." && pwd)
program=$(readlink -f "${1:-$top/crates/dude/out/dude}")
room=$(mktemp -d)
trap 'rm -rf "$room"' EXIT
cd "$room" || exit 1
tried=0 wrong=0

# Runs the program, and compares its status, its output and the last line on standard error with the first three words.
try() {
  local status=$1 output=$2 line=$3 found
  shift 3
  "$program" "$@" > out 2> err < /dev/null
  found=$?
  tried=$((tried + 1))
  [ "$found" = "$status" ] && [ "$(head -c 200 out)" = "$output" ] && [ "$(tail -n 1 err)" = "$line" ] && return
  wrong=$((wrong + 1))
  echo "dude $*: status $found, output '$(head -c 200 out)', last line '$(tail -n 1 err)'; not $status, '$output', '$line'"
}

# Says what is wrong, where the test that follows fails.
holds() {
  local what=$1
  shift
  tried=$((tried + 1))
  "$@" || { wrong=$((wrong + 1)); echo "$what"; }
}

printf 'UPDATE_LOCATION,000000000000001,7\nSYNC\n' > good.csv
printf 'SYNC\nSINC\n' > bad.csv
head -c 1232 /dev/zero > short.img
mkdir folder

try 0 'last 0' 'durable 0' new.img format 8 96 2 16
holds 'a new image has 33554432 bytes' [ "$(stat -c %s new.img)" = 33554432 ]
holds 'nothing is left beside a new image' [ -z "$(find . -name '*.new*')" ]
try 0 $'1 OK\n1 DURABLE\nlast 1' 'durable 1' new.img run good.csv
try 0 'last 1' 'durable 1' new.img recover
try 0 $'1 OK\n1 DURABLE\nlast 1' 'durable 1' other.img fresh 8 good.csv
try 2 '' 'usage'
try 2 '' 'usage' new.img
try 2 '' 'usage' run new.img good.csv
try 2 '' 'usage' new.img format 0 96 2 16
holds 'a new image is made before the words are judged' [ -e run ]
try 2 '' 'usage' unmade.img $'run\xff'
holds 'a word that is no text makes no file' [ ! -e unmade.img ]
try 3 '' 'file 2' new.img run good.csv none.csv
try 3 '' 'file 1' new.img run folder
try 4 '' 'file 1 record 2 field 0' new.img run bad.csv
try 5 '' 'unformatted' short.img recover
holds 'a refused image stays' cmp -s short.img <(head -c 1232 /dev/zero)
try 5 '' 'too many files: 3 files, 2 rings' new.img run good.csv good.csv good.csv
try 6 '' 'device' folder recover
try 6 '' 'device' none/new.img recover
try 0 'dude 0.1.0' '' --version
"$program" --help > out 2> err
holds 'help is printed' grep -q '^usage: dude IMAGE COMMAND' out
holds 'help goes to standard output alone' [ ! -s err ]
"$program" new.img recover > /dev/full 2> err
holds 'a full output ends with 7' [ $? = 7 ]
holds 'a full output is told' [ "$(tail -n 1 err)" = output ]
"$program" new.img recover > out 2> /dev/full
holds 'a full standard error ends with 6' [ $? = 6 ]
holds 'nothing is printed then' [ ! -s out ]
exec 8> >(:)
wait $!
"$program" new.img recover >&8 2> err
holds 'a closed pipe ends with 7' [ $? = 7 ]
"$program" new.img recover > out 2>&-
holds 'a closed standard error ends with 6' [ $? = 6 ]
try 0 'last 1' 'durable 1' new.img recover
# An audit of a printed run: of the run, of one with a character changed, of none, and of more files than rings.
"$program" audited.img format 8 96 2 16 > out 2> err < /dev/null
cp audited.img copy.img
"$program" audited.img run good.csv > right.txt 2> err < /dev/null
sed 's/^1 DURABLE/0 DURABLE/' right.txt > wrong.txt
cp copy.img before.img
try 0 'yes' '' copy.img audit right.txt good.csv
try 10 '' 'audit line 2' copy.img audit wrong.txt good.csv
try 3 '' 'file 1' copy.img audit none.txt good.csv
try 4 '' 'file 2 record 2 field 0' copy.img audit right.txt bad.csv
try 10 '' 'audit line 3' copy.img audit right.txt good.csv good.csv good.csv good.csv good.csv good.csv good.csv good.csv good.csv
try 2 '' 'usage' copy.img audit right.txt
holds 'an audit leaves its image' cmp -s copy.img before.img

# A stream: each reply stands behind the number of its file. It refuses what a run refuses, and where the output fails all is done.
"$program" streamed.img format 8 96 2 16 > out 2> err < /dev/null
try 0 $'1 1 OK\n1 1 DURABLE\nlast 1' 'durable 1' streamed.img stream good.csv
try 0 $'1 2 OK\n1 2 DURABLE\nlast 2' 'durable 2' streamed.img stream --locks 1 good.csv
try 2 '' 'usage' streamed.img stream
try 2 '' 'usage' streamed.img stream --locks 0 good.csv
try 2 '' 'usage' streamed.img stream --locks 1 --locks 1 good.csv
try 2 '' 'usage' streamed.img stream --frames=15 good.csv
try 2 '' 'usage' streamed.img stream good.csv --locks 1
try 3 '' 'file 2' streamed.img stream good.csv none.csv
try 4 '' 'file 1 record 2 field 0' streamed.img stream bad.csv
try 5 '' 'too many files: 3 files, 2 rings' streamed.img stream good.csv good.csv good.csv
try 5 '' 'frames 14, pages 15' streamed.img stream --frames 14 good.csv
"$program" streamed.img stream good.csv > /dev/full 2> err
holds 'a stream into a full output ends with 7' [ $? = 7 ]
holds 'what a stream into a full output did is durable' [ "$(head -n -1 err | tail -n 1)" = 'durable 3' ]
"$program" streamed.img stream good.csv >&8 2> err
holds 'a stream into a closed pipe ends with 7' [ $? = 7 ]
exec 8>&-
try 0 'last 4' 'durable 4' streamed.img recover
"$program" streamed.img stream good.csv good.csv > out 2> err < /dev/null
holds 'a stream of a file twice ends with 0' [ $? = 0 ]
holds 'each line of a stream begins with the number of its file' [ "$(cut -d ' ' -f 1 out | sort | tr '\n' ' ')" = '1 1 2 2 last ' ]
holds 'the last number of a stream stands last' [ "$(tail -n 1 out)" = 'last 6' ]

# A follower of a shipped run: both packets in the other order, one alone, one cut off, and another leader's.
"$program" lead.img format 8 96 2 16 > out 2> err < /dev/null
cp lead.img follow.img
cp lead.img other.img
printf 'UPDATE_LOCATION,000000000000001,7\nSYNC\nUPDATE_LOCATION,000000000000001,8\n' > led.csv
printf 'UPDATE_LOCATION,000000000000001,9\nUPDATE_LOCATION,000000000000002,9\n' > other.csv
"$program" lead.img ship led.csv > both.bin 2> err < /dev/null
holds 'two bundles of a write are 128 bytes' [ "$(stat -c %s both.bin)" = 128 ]
holds 'a ship tells its last number' [ "$(tail -n 1 err)" = 'durable 2' ]
head -c 64 both.bin > first.bin
tail -c 64 both.bin > second.bin
head -c 127 both.bin > cut.bin
"$program" other.img ship other.csv > other.bin 2> err < /dev/null
try 0 'last 0 waiting 1 dropped 0' 'durable 0' follow.img follow second.bin
try 4 '' 'file 1 record 2 field 0' follow.img follow cut.bin
try 0 'last 1 waiting 0 dropped 0' 'durable 1' follow.img follow first.bin
try 11 '' 'strange packet 1 of file 2' follow.img follow first.bin other.bin
try 0 'last 2 waiting 0 dropped 0' 'durable 2' follow.img follow second.bin first.bin second.bin
"$program" lead.img dump > lead.dump 2> err < /dev/null
"$program" follow.img dump > follow.dump 2> err < /dev/null
holds 'a follower has the rows of its leader' cmp -s lead.dump follow.dump
try 3 '' 'file 2' follow.img follow first.bin none.bin
try 2 '' 'usage' follow.img follow
try 2 '' 'usage' follow.img ship

# A load on a terminal: one line that is written anew, then the last number told, then the output.
script -qec "'$program' new.img drive 7 2000 2" /dev/null > out 2> err < /dev/null
holds 'a load on a terminal ends with 0' [ $? = 0 ]
holds 'its progress ends with all requests' grep -q $'\r4,000 of 4,000 requests, durable [0-9,]*, [0-9,]* syncs a second *\r$' out
holds 'of its numbers the last one is told in a line' [ "$(grep -c '^durable [0-9]*.$' out)" = 1 ]
holds 'its output stands behind that line' [ "$(sed -n '/^durable/,$p' out | grep -c '^SYNC 2 ')" = 1 ]
try 0 "$(sed -n 's/^durable \([0-9]*\).*/last \1/p' out)" "$(sed -n 's/^\(durable [0-9]*\).*/\1/p' out)" new.img recover

cp new.img before.img
exec 9<> new.img
flock 9
for words in recover dump 'run good.csv' 'stream good.csv' 'drive 1 5 2' 'format 8 96 2 16' 'fresh 8 good.csv' 'audit right.txt good.csv' 'ship good.csv' 'follow first.bin'; do
  try 6 '' 'device' new.img $words
done
exec 9>&-
holds 'a locked image stays' cmp -s new.img before.img

# A second process on an image that is driven: each command ends at once, and the image has what the first process told.
# The first process stands still meanwhile, so that it can't end before them; that it goes on is seen by what it tells then.
"$program" kept.img format 1000 12000 8 256 > out 2> err < /dev/null
"$program" kept.img drive 1 99999 8 > drive.out 2> drive.err < /dev/null & driver=$!
for _ in $(seq 1000); do grep -q durable drive.err && break; sleep 0.01; done
kill -STOP "$driver"
for words in dump recover 'run good.csv' 'drive 1 5 2' 'format 8 96 2 16'; do
  begun=$(date +%s%N)
  try 6 '' 'device' kept.img $words
  holds "beside a drive, $words ends within a second" [ $(($(date +%s%N) - begun)) -lt 1000000000 ]
done
count=$(wc -l < drive.err)
kill -CONT "$driver"
for _ in $(seq 1000); do [ "$(wc -l < drive.err)" -gt "$count" ] && break; sleep 0.01; done
holds 'the drive goes on beside the others' [ "$(wc -l < drive.err)" -gt "$count" ]
kill -9 "$driver" 2> /dev/null
wait "$driver" 2> /dev/null
told=$(sed -n 's/^durable //p' drive.err | tail -n 1)
"$program" kept.img recover > out 2> err < /dev/null
holds "an image of which $told was told recovers to it at least, and not to $(cat out)" [ "$(sed -n 's/^last //p' out)" -ge "$told" ]

ln -s nowhere link.img
try 6 '' 'device' link.img recover
holds 'nothing is left beside an image that is not made' [ -z "$(find . -name '*.new*')" ]

echo "$tried command lines and what they leave: $wrong wrong"
[ "$wrong" = 0 ]
