#!/bin/bash
# Measures a store in a file beside other stores and beside the bare calls of the system, and prints three tables:
#
#   bench/run.sh [FOLDER]      in a new folder below the current one, if none is said
#
# 1. A durable append: each system appends the operations of the same jobs, each durable before the next, in rounds whose
#    order is shuffled. Median, mean and 99th percentile of a round, their ratios to those of the bare calls (write, sync,
#    write, sync) in the same round, the median's ratio to one write and one sync, and how often the device was told to
#    flush. Each figure is the median of all rounds.
# 2. Opening a store of 1,000, 10,000 and 16,000 operations and reading all of them, for each operation; warm, with the
#    files in memory, and cold, with the system told to forget them. What the other stores give is kept in memory, as this
#    store keeps it, or only looked at.
# 3. Appends over more than 100 changes of area, in memory where the system has such a folder, so that a sync costs nothing: over
#    100, 1,000 and 10,000 jobs that go on, another job, its end, its removal and an Epoch again and again. Median, 99th percentile and the
#    worst, which are those that write an area anew; and the same appends to the other stores, each durable by its own sync, with the flushes,
#    compactions or checkpoints that it tells of. A last line has 20 changes over 16,500 jobs in the folder itself.
#
# It builds crates/rm_bench by `rt run`, or takes a built one that PROGRAM in the environment names, and bench/peers.cc by g++. It
# installs nothing: on Debian the other stores are
#
#   apt-get install g++ libleveldb-dev librocksdb-dev libsqlite3-dev liblmdb-dev
#
# and one that isn't there is left out and named. ROUNDS and JOBS in the environment are how many rounds there are, and how
# many jobs, of four operations each, are appended in one; TABLES names those of the tables append, open and pauses that are made, and
# CHANGES how many changes of area the third one has.
set -euo pipefail

rounds=${ROUNDS:-7}
jobs=${JOBS:-125}
tables=${TABLES:-append open pauses}
changes=${CHANGES:-100}
here=$(cd "$(dirname "$0")/.." && pwd)
folder=$(mktemp -d "${1:-$PWD}/run.XXXXXX")
memory= # a folder in memory
trap 'rm -rf "$folder" "$memory"' EXIT
ours=${PROGRAM:-$here/crates/rm_bench/out/rm_bench}
peers=$folder/peers

# Whether a header is there.
has() { echo "#include <$1>" | g++ -E -x c++ - > /dev/null 2>&1; }

build() {
  local tool
  for tool in g++ shuf findmnt; do
    command -v "$tool" > /dev/null || { echo "not there: $tool" >&2; exit 1; }
  done
  [ -n "${PROGRAM:-}" ] || (cd "$here/crates/rm_bench" && rt run > /dev/null 2>&1) || { echo "rm_bench was not built" >&2; exit 1; }
  local flags=() libraries=()
  if has leveldb/db.h; then flags+=(-DWITH_LEVELDB); libraries+=(-lleveldb); else echo "not there: LevelDB"; fi
  if has rocksdb/db.h; then flags+=(-DWITH_ROCKSDB); libraries+=(-lrocksdb); else echo "not there: RocksDB"; fi
  if has sqlite3.h; then flags+=(-DWITH_SQLITE); libraries+=(-lsqlite3); else echo "not there: SQLite"; fi
  if has lmdb.h; then flags+=(-DWITH_LMDB); libraries+=(-llmdb); else echo "not there: LMDB"; fi
  g++ -O2 -std=c++17 "${flags[@]}" "$here/bench/peers.cc" -o "$peers" "${libraries[@]}"
}

# How often the folder's device was told to flush, or nothing where the system doesn't count it.
flushes() {
  local device=/sys/dev/block/$(stat -c '%Hd:%Ld' "$folder")
  if [ -e "$device/partition" ]; then device=$device/..; fi
  if [ -r "$device/stat" ]; then awk '{print $16}' "$device/stat"; fi
}

# One round of appends of a system: for each of the two operations a line with the median, the mean and the 99th percentile in
# nanoseconds, and one line with the flushes of an append.
append_round() {
  local system=$1 data=$folder/data before after operation
  rm -rf "$data"
  mkdir "$data"
  before=$(flushes)
  if [ "$system" = yewendro ]; then
    "$ours" append "$data/store" "$jobs"
  else
    "$peers" append "$system" "$data" "$jobs"
  fi > "$folder/times"
  after=$(flushes)
  for operation in "${operations[@]}"; do
    awk -v word="$operation" '$1 == word {print $2}' "$folder/times" | sort -n | awk '{value[NR] = $1; sum += $1}
      END {print value[int((NR + 1) / 2)], sum / NR, value[int(NR * 0.99 + 0.5)]}' >> "$folder/append.$system.$operation"
  done
  if [ -n "$before" ]; then
    echo "$before $after $jobs" | awk '{print ($2 - $1) / ($3 * 4)}' >> "$folder/flushes.$system"
  fi
  rm -rf "$data"
}

# The median of the numbers on standard input.
median() { sort -g | awk '{value[NR] = $1} END {if (NR) print value[int((NR + 1) / 2)]; else print "-"}'; }

# The median over the rounds of a column of a system's figures, and of its ratio to that of another.
figure() { awk -v column="$3" '{print $column}' "$folder/append.$1.$2" | median; }
ratio() {
  paste -d' ' "$folder/append.$1.$2" "$folder/append.$4.$2" | awk -v column="$3" '{print $column / $(column + 3)}' | median
}

append_table() {
  local operation system column
  echo "| operation | system | median µs | mean µs | p99 µs | of the bare calls: median | mean | p99 | of one sync: median | flushes an append |"
  echo "|---|---|---|---|---|---|---|---|---|---|"
  for operation in "${operations[@]}"; do
    for system in "${appenders[@]}"; do
      printf '| %s | %s |' "$operation" "$system"
      for column in 1 2 3; do figure "$system" "$operation" "$column" | awk '{printf " %.1f |", $1 / 1000}'; done
      for column in 1 2 3; do ratio "$system" "$operation" "$column" raw | awk '{printf " %.2f |", $1}'; done
      ratio "$system" "$operation" 1 raw-one-sync | awk '{printf " %.2f |", $1}'
      touch "$folder/flushes.$system"
      median < "$folder/flushes.$system" | awk '{if ($1 == "-") print " - |"; else printf " %.2f |\n", $1}'
    done
  done
}

# Makes a store of so many jobs of a system.
make_store() {
  local system=$1 data=$folder/made.$1.$2
  mkdir "$data"
  if [ "$system" = yewendro ]; then "$ours" make "$data/store" "$2"; else "$peers" make "$system" "$data" "$2"; fi
}

# Opens a copy of a store that was made, warm or cold, and looks at its operations or keeps them: a line of how long each
# operation took.
open_round() {
  local system=$1 what=$2 many=$3 how=$4 data=$folder/data
  rm -rf "$data"
  cp -r "$folder/made.$system.$many" "$data"
  sync "$data"/*
  if [ "$how" = cold ]; then "$peers" evict "$data"/*; fi
  if [ "$system" = yewendro ]; then "$ours" open "$data/store"; else "$peers" open "$system" "$data" "$what"; fi |
    awk -v wanted=$((many * 4)) '$1 != wanted {exit 1} {print $2 / $1}' >> "$folder/open.$system.$what.$many.$how"
  rm -rf "$data"
}

open_table() {
  local opener system what many how
  echo "| system | what is read is | 1,000 warm | cold | 10,000 warm | cold | 16,000 warm | cold |"
  echo "|---|---|---|---|---|---|---|---|"
  for opener in "${openers[@]}"; do
    read -r system what <<< "$opener"
    if [ "$what" = keep ]; then printf '| %s | kept |' "$system"; else printf '| %s | looked at |' "$system"; fi
    for many in 250 2500 4000; do
      for how in warm cold; do
        median < "$folder/open.$system.$what.$many.$how" | awk '{printf " %.0f |", $1}'
      done
    done
    echo
  done
}

# Whether a table is to be made.
wants() { [[ " $tables " == *" $1 "* ]]; }

# Appends over so many jobs that go on, in a folder, until so many areas of this store are full: a line of the table. A job takes 125
# bytes, its end 21, a removal and an Epoch 18 each, of half of 4 MiB less a generation and an Epoch.
pauses_of() {
  local place=$1 system=$2 live=$3 many=$4 name=$5 cycles data
  cycles=$(((2097152 - 13 - 18 - 125 * live) * many / 182))
  data=$place/data
  rm -rf "$data"
  mkdir "$data"
  if [ "$system" = yewendro ]; then
    echo "$many changes of area" > "$folder/work"
    "$ours" pauses "$data/store" "$live" "$cycles"
  else
    "$peers" pauses "$system" "$data" "$live" "$cycles" 2> "$folder/work"
  fi > "$folder/times"
  sort -n "$folder/times" | awk -v name_of_system="$system" -v live="$live" -v work="$(cat "$folder/work")" -v name="$name" '
    {value[NR] = $1}
    END {printf "| %s | %s | %d | %d | %s | %.1f | %.1f | %.1f |\n", name, name_of_system, live, NR, work,
      value[int((NR + 1) / 2)] / 1e3, value[int(NR * 0.99 + 0.5)] / 1e3, value[NR] / 1e6}'
  rm -rf "$data"
}

pause_table() {
  local live system
  memory=$folder
  if [ -w /dev/shm ]; then memory=$(mktemp -d /dev/shm/run.XXXXXX); fi
  echo "| where | system | jobs that go on | appends | its own work | median µs | p99 µs | worst ms |"
  echo "|---|---|---|---|---|---|---|---|"
  for live in 100 1000 10000; do
    for system in "${systems[@]}"; do pauses_of "$memory" "$system" "$live" "$changes" memory; done
  done
  pauses_of "$folder" yewendro 16500 20 folder
}

machine() {
  echo "- $(date -u +%Y-%m-%d), $(uname -sr), $(awk -F': ' '/model name/ {print $2; exit}' /proc/cpuinfo), $(nproc) processors"
  echo "- $(findmnt -no FSTYPE,SOURCE -T "$folder" | awk 'END {print $1 " on " $2}')"
  echo "- $(rt version | head -n 1); $("$peers" list | paste -sd, | sed 's/,/, /g')"
  echo "- load before: $load; after: $(cut -d' ' -f1-3 /proc/loadavg)"
  if wants append || wants open; then echo "- $rounds rounds of $((jobs * 4)) appends; each opening $rounds times"; fi
}

build
load=$(cut -d' ' -f1-3 /proc/loadavg)
systems=(yewendro)
while read -r system _; do systems+=("$system"); done < <("$peers" list)
appenders=(raw raw-one-sync "${systems[@]}")
openers=()
for system in "${systems[@]}"; do
  openers+=("$system keep")
  if [ "$system" != yewendro ]; then openers+=("$system look"); fi
done
operations=(app attempt-end)

if wants append; then
  for ((round = 0; round < rounds; round++)); do
    for system in $(printf '%s\n' "${appenders[@]}" | shuf); do append_round "$system"; done
  done
fi

cases=()
if wants open; then
  for many in 250 2500 4000; do
    for system in "${systems[@]}"; do make_store "$system" "$many"; done
    for opener in "${openers[@]}"; do cases+=("$opener $many warm" "$opener $many cold"); done
  done
  for ((round = 0; round < rounds; round++)); do
    while read -r system what many how; do open_round "$system" "$what" "$many" "$how"; done < <(printf '%s\n' "${cases[@]}" | shuf)
  done
fi

if wants pauses; then pause_table > "$folder/pauses"; fi

machine
if wants append; then
  echo
  append_table
fi
if wants open; then
  echo
  echo "Nanoseconds for each operation, of an opening:"
  echo
  open_table
fi
if wants pauses; then
  echo
  echo "Appends over changes of area, and the same to the other stores:"
  echo
  cat "$folder/pauses"
fi
