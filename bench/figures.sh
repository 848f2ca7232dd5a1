# shellcheck shell=bash disable=SC2034
# What the scripts that measure the speed share; they source it. A file of figures is CSV, behind a line that begins with `#`
# and tells the machine. Its fields:
#
#     where             disk or memory
#     program           a name: of a build of this program, or of another store and its version
#     subscribers       of the database
#     files             of the load; this program has a thread for each, a store one for all
#     requests a file   of the load, without its SYNC
#     changes a commit  how many changes the store was let to commit and sync at once; empty where that is its own to choose
#     requests a second
#     syncs a change    three decimals; empty where they weren't counted. A change is a request whose update got a number

figures_head='where,program,subscribers,files,requests a file,changes a commit,requests a second,syncs a change'

# What a word NAME=PATH begins with.
named='^[^/=,]+='

# Reads the options of a script, `--csv FILE` and `--rounds N`, and leaves its other words in `words`.
read_options() {
  csv='' rounds=5
  while [[ ${1-} == --* ]]; do
    case $1 in
      --csv) csv=${2:?--csv needs a file} ;;
      --rounds) rounds=${2:?--rounds needs a number} ;;
      *) echo "$1 is no option" >&2; exit 1 ;;
    esac
    shift 2
  done
  words=("$@")
}

# The kind of file system that a folder stands in.
file_system() { df --output=fstype "$1" | tail -n 1; }

# One line on the machine, and on the file systems of a folder on a disk and of one in memory.
machine() {
  local model
  model=$(awk -F ': *' '/^model name/ { print $2; exit }' /proc/cpuinfo)
  echo "$(nproc) processors${model:+ ($model)}, Linux $(uname -r | cut -d - -f 1);" \
    "disk: $(file_system "$1"), memory: $(file_system "$2")"
}

# Begins a file of figures for these two folders, where it isn't there or is empty. No name means no file.
begin_figures() {
  [ -n "$1" ] && [ ! -s "$1" ] || return 0
  { echo "# $(machine "$2" "$3")"; echo "$figures_head"; } > "$1"
}

# Appends a line of these fields to a file of figures.
add_figures() {
  local file=$1 IFS=,
  shift
  [ -z "$file" ] || echo "$*" >> "$file"
}

# The middle one of the numbers in a file.
median() { sort -n "$1" | sed -n "$(($(wc -l < "$1") / 2 + 1))p"; }

# A number that divides another one, with three decimals; nothing where there are none.
ratio() { awk -v above="$1" -v below="$2" 'BEGIN { if (above != "" && below > 0) printf "%.3f", above / below }'; }

# Whether the kernel counts calls for perf. Threads are not slowed by that, as they are by strace.
perf_counts() { perf stat -x , -o /dev/null -e syscalls:sys_enter_fdatasync true 2> /dev/null; }

# Whether syncs can be counted.
can_count() { command -v strace > /dev/null || perf_counts; }

# How often a command syncs that opens no file so that each write is synced: its fdatasyncs, fsyncs and msyncs, by perf, else
# by strace; nothing where both are missing. FOLDER takes its output, and the counts.
count_syncs() {
  local folder=$1 event events=()
  if ! perf_counts; then
    trace_syncs "$@"
    return
  fi
  shift
  for event in fdatasync fsync msync; do events+=(-e "syscalls:sys_enter_$event"); done
  perf stat -x , -o "$folder/calls" "${events[@]}" -- "$@" > "$folder/out" 2> "$folder/told" ||
    { cat "$folder/told" >&2; return 1; }
  awk -F , '$3 ~ /^syscalls:/ { syncs += $1 } END { print syncs + 0 }' "$folder/calls"
}

# How often a command syncs, or nothing where strace is missing: its fdatasyncs, fsyncs and msyncs, and its writes to a file
# that was opened so that each is synced. FOLDER takes its output, and the list of calls.
trace_syncs() {
  local folder=$1
  shift
  command -v strace > /dev/null || return 0
  strace -f --seccomp-bpf -qq -e trace=openat,pwrite64,fdatasync,fsync,msync -e signal=none -o "$folder/calls" \
    "$@" > "$folder/out" 2> "$folder/told" || { cat "$folder/told" >&2; return 1; }
  awk '$2 ~ /^openat\(/ && /O_D?SYNC/ { synced["pwrite64(" $NF ","] = 1 }
    $2 ~ /^openat\(/ && !/O_D?SYNC/ { delete synced["pwrite64(" $NF ","] }
    $2 ~ /^(fdatasync|fsync|msync)\(/ || $2 in synced { syncs++ }
    END { print syncs + 0 }' "$folder/calls"
}
