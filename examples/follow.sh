#!/usr/bin/env bash
# A tour of a follower: two runs are shipped, their packets are lost and shuffled on the way, and a copy of the image follows.
#
#     examples/follow.sh [FOLDER]     leaves leader.img and follower.img in FOLDER, or here
#
# The first use proves and builds the program, which takes minutes.
set -eu
here=$(cd "$(dirname "$0")" && pwd)
dude=$here/../dude
cd "${1:-.}"

# Shows a command, and runs it.
show() {
  echo
  echo "\$ dude $*"
  "$dude" "$@"
}

# Shows a command, and runs it with its output to a file.
show_to() {
  local file=$1
  shift
  echo
  echo "\$ dude $* > $file"
  "$dude" "$@" > "$file"
}

# Prints the packets of a file, those with these numbers, from 1, in this order. Each of them has one cell, of 64 bytes.
pick() {
  local file=$1 packet
  shift
  for packet in "$@"; do tail -c +$((64 * packet - 63)) "$file" | head -c 64; done
}

echo "A new image of a leader, and a copy of it: the follower."
show leader.img format 1000 12000 4 256
cp leader.img follower.img

echo
echo "Two runs of the leader. Each prints its log: a packet for each bundle of updates. With a SYNC behind each update a bundle"
echo "is one update, of 64 bytes."
for subscriber in 1 2 3; do printf 'UPDATE_LOCATION,%015d,7\nSYNC\n' "$subscriber"; done > shipped1.csv
for subscriber in 4 5 6; do printf 'UPDATE_LOCATION,%015d,8\nSYNC\n' "$subscriber"; done > shipped2.csv
show_to shipped1.packets leader.img ship shipped1.csv
show_to shipped2.packets leader.img ship shipped2.csv
echo "they printed $(stat -c %s shipped1.packets) and $(stat -c %s shipped2.packets) bytes"

echo
echo "A bad link: packet 2 is lost, packet 5 comes twice, and none is in its place."
cat shipped1.packets shipped2.packets > sent.packets
pick sent.packets 5 3 1 6 5 4 > came.packets
show follower.img follow came.packets

echo
echo "The follower has number 1, and it forgets what waits when it ends. Once the lost packet is sent again it comes up to the"
echo "leader."
pick sent.packets 2 > again.packets
show follower.img follow again.packets came.packets

echo
echo "The two have the same rows, at the same number."
"$dude" leader.img dump 2> /dev/null > leader.csv
"$dude" follower.img dump 2> /dev/null > follower.csv
cmp leader.csv follower.csv && tail -n 1 follower.csv
rm -f shipped1.* shipped2.* sent.packets came.packets again.packets leader.csv follower.csv
