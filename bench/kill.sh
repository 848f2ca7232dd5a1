#!/usr/bin/env bash
# Kills commands of the built program on a real file at random moments: `format`, `xformat`, runs of one, of two and of four request
# files, and generated loads of one and of four. A file has a thread of its own, so nobody knows in which order the requests
# of several files were carried out. After each kill the program recovers and dumps a copy of what is left of the image, and
# a slow program of its own, recover.py, recovers it too: both must come to the same number and the same rows. The number is
# at least the last `durable N` printed, and the rows are those of the image that stood there before, with a prefix of each
# file carried out on them. In most runs each file has subscribers of its own, so that its prefix is read off its rows; in
# one of six, four files give locations to the same 40 subscribers, each a value of its own, and there must be an order of
# some prefixes that leaves the locations found. A run that ends before its moment has to have done all, and what it printed
# is audited. A new image has to be there whole or not at all. A process that is killed loses nothing that it has written,
# so nothing is said of a loss of power. Outside the gate.
#
#     bench/kill.sh [FOLDER [KILLS [SECONDS [PROGRAM]]]]
#         at most KILLS (200) kills in about SECONDS (180), in a folder below FOLDER (.)
#         PROGRAM a path, or crates/dude/out/dude
set -eu
here=$(cd "$(dirname "$0")" && pwd)
program=$(readlink -f "${4:-$here/../crates/dude/out/dude}")
[ -x "$program" ] || { echo "no program: $program; ./dude --version builds it" >&2; exit 1; }
most=${2:-200} limit=${3:-180}
folder=$(mktemp -d "${1:-.}/kill.XXXXXX")
image=$folder/tatp.img before=$folder/before.img copy=$folder/copy.img

# Four files of 20,000 requests, each of 250 subscribers of its own among 1,000. Half of them read, and each fiftieth that
# writes has a number that no subscriber has.
for file in 1 2 3 4; do
  awk -v file="$file" 'BEGIN {
    for (i = 1; i <= 20000; i++) {
      s = file + 4 * (i * 7919 % 250)
      number = (i % 50 == 1 ? 2000 : 0) + s
      type = 1 + i % 4
      start = 8 * (i % 3)
      if (i % 10 == 0) print "SYNC"
      else if (i % 10 == 1) printf "INSERT_CALL_FORWARDING,%015d,%d,%d,%d,%015d\n", number, type, start, 1 + i % 24, i
      else if (i % 10 == 2) printf "DELETE_CALL_FORWARDING,%015d,%d,%d\n", number, 1 + i % 3, start
      else if (i % 10 == 3) printf "UPDATE_SUBSCRIBER_DATA,%d,%d,%d,%d\n", s, i % 2, type, i % 256
      else if (i % 10 < 6) printf "UPDATE_LOCATION,%015d,%d\n", number, i
      else if (i % 10 < 8) printf "GET_SUBSCRIBER_DATA,%d\n", s
      else printf "GET_NEW_DESTINATION,%d,%d,%d,%d\n", s, type, start, 1 + i % 24
    }
  }' > "$folder/own$file.csv"
done

# Writes four files of 5,000 requests of the same 40 subscribers. No location that they give was given before, in this run or
# in an earlier one.
write_shared() {
  local file
  for file in 1 2 3 4; do
    awk -v file="$file" -v run="$runs" 'BEGIN {
      for (i = 1; i <= 5000; i++) {
        s = 1 + (i * 7919 + file * 17) % 40
        if (i % 50 == 0) print "SYNC"
        else if (i % 4 == 0) printf "GET_SUBSCRIBER_DATA,%d\n", s
        else printf "UPDATE_LOCATION,%015d,%d\n", s, 2000000 + (4 * run + file) * 5000 + i
      }
    }' > "$folder/shared$file.csv"
  done
}

# The folder is left where something is wrong, so that it can be looked at.
wrong() {
  echo "WRONG after kill $kills, at $moment s of ${words[*]}: $1. What is left stands in $folder" >&2
  exit 1
}

# The words of the next command. Each sixth one makes an image, and so does each while there is none; half of them a new file,
# half of them with short rings, which soon go round, and half of them with an index.
choose() {
  local kinds=(format xformat)
  local make=("${kinds[runs / 24 % 2]}" 1000 12000 4 "$((runs / 6 % 2 == 0 ? 16 : 256))")
  case $((runs % 6)) in
    1) words=("${make[@]}") ;;
    2) words=(run "$folder"/own{1,2,3,4}.csv) ;;
    3) words=(drive "$runs" 20000 4) ;;
    4) words=(run "$folder"/shared{1,2,3,4}.csv) ;;
    5) words=(run "$folder"/own{1,2}.csv) ;;
    0) if [ $((runs / 6 % 2)) -eq 0 ]; then words=(drive "$runs" 20000 1); else words=(run "$folder/own1.csv"); fi ;;
  esac
  [ "$formatted" = yes ] || words=("${make[@]}")
  [ "${words[-1]}" != "$folder/shared4.csv" ] || write_shared
  [[ ${words[0]} != *format ]] || [ $((runs / 12 % 2)) -eq 0 ] || rm -f "$image" "$image".new*
}

# What the program itself recovers from a copy of the image, or nothing where it can't. It is timed.
recover_copy() {
  local start
  cp "$image" "$copy"
  : > "$folder/dumped"
  start=$(date +%s%N)
  if "$program" "$copy" recover > "$folder/recovered" 2>&1; then
    opening=$(($(date +%s%N) - start))
    "$program" "$copy" dump > "$folder/dumped" 2> "$folder/other" || wrong "what was recovered has no dump"
    [ "$(sed -n 's/^last //p' "$folder/recovered")" = "$(sed -n 's/^LAST,//p' "$folder/dumped")" ] ||
      wrong "the dump has another number than the recovery"
  fi
}

# A run that wasn't killed has printed an order that may be.
audit_output() {
  [ "${words[0]}" = run ] || return 0
  "$program" "$before" audit "$folder/output" "${words[@]:1}" > "$folder/audited" 2> "$folder/other" || true
  [ "$(cat "$folder/audited")" = yes ] || wrong "the audit of its output said $(cat "$folder/audited" "$folder/other")"
  audits=$((audits + 1))
}

opening=0 kills=0 runs=0 untold=0 unmade=0 ahead=0 furthest=0 formatted=no void=0 audits=0 judged=0 four=0
while [ "$kills" -lt "$most" ] && [ "$SECONDS" -lt "$limit" ]; do
  runs=$((runs + 1))
  choose
  rm -f "$before"
  [ ! -e "$image" ] || cp "$image" "$before"
  # Below a second and four times the last opening, and early moments more often.
  moment=$(awk -v a="$RANDOM" -v opening="$opening" 'BEGIN { u = (a + 1) / 32769; printf "%.5f", u * u * (1 + 4e-9 * opening) }')
  status=0
  timeout --foreground --preserve-status -s KILL "$moment" "$program" "$image" "${words[@]}" \
    > "$folder/output" 2> "$folder/told" || status=$?
  [ "$status" -eq 0 ] || [ "$status" -eq 137 ] || wrong "the command ended with $status"
  [ "$status" -eq 0 ] || kills=$((kills + 1))
  if [ ! -e "$image" ]; then
    [ ! -s "$folder/told" ] || wrong "something was told of an image that isn't there"
    unmade=$((unmade + 1)) formatted=no
    continue
  fi
  [ "$(stat -c %s "$image")" -eq 33554432 ] || wrong "the image isn't whole"
  recover_copy
  ended=()
  [ "$status" -ne 0 ] || ended=(--ended)
  said=$(python3 "$here/recover.py" "${ended[@]}" --dump "$folder/dumped" "$before" "$image" "$folder/told" "${words[@]}") ||
    wrong "see the line above"
  if [ "$said" = none ]; then
    untold=$((untold + 1)) formatted=no
    continue
  fi
  read -r told number empty <<< "$said"
  formatted=yes judged=$((judged + 1)) void=$((void + empty))
  [ "$status" -ne 0 ] || audit_output
  case ${words[*]} in "drive "*" 4" | *4.csv) [ ! -s "$folder/told" ] || four=$((four + 1)) ;; esac
  [ $((number - told)) -le "$ahead" ] || ahead=$((number - told))
  [ "$number" -le "$furthest" ] || furthest=$number
done
rm -rf "$folder"
echo "$kills of $runs commands were killed, in $SECONDS s: $unmade ended before the image was there, $untold more before durable 0"
echo "after each other one, $judged, the program and recover.py recovered the same rows and number, those of prefixes of its files;"
echo "$four of them had four files; $audits runs that ended had an audit that said yes; at least $void numbers had no request"
echo "the image recovered to at least the last number printed, and at most $ahead over it"
echo "the greatest number that one recovered to was $furthest"
