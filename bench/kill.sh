#!/bin/bash
# Kills a process that appends numbered operations to a store in a file, at a random moment, and looks at what it left:
#
#   bench/kill.sh [KILLS [FOLDER [JOBS]]]      1000 kills, in a new folder below the current one, if nothing is said
#
# The process tells each number on its standard output as soon as its append was acknowledged, and goes on from what the
# last one left. After each kill the store is opened: its operations have to be those of the numbers from 1 on, in order, up
# to the last number that was told, or to the one after it. Every twentieth process finds no file, and so may be killed while
# it makes one. The last line counts what was lost; the status is 0 where that is nothing.
#
# With JOBS, at most 16500, the store keeps so many jobs that go on, and the process appends cycles: another job, its end, its removal, and
# an Epoch with the cycle's number, which is told once that is kept. So the store changes its area again and again, and the more jobs go on, the
# more kills fall amid a change. After a kill the jobs have to be those, or also the one of the cycle that was cut off, and the last Epoch that of
# the last cycle that was told, or the one after it. FOLDER in memory makes the most of it, since a sync costs nothing there.
#
# It builds crates/rm_bench by `rt run`, or takes a built one that PROGRAM in the environment names, and needs nothing else. A kill
# ends a process and not the system: what a loss of power leaves is not tried here.
set -euo pipefail

here=$(cd "$(dirname "$0")/.." && pwd)
kills=${1:-1000}
folder=$(mktemp -d "${2:-$PWD}/kill.XXXXXX")
jobs=${3:-}
program=${PROGRAM:-$here/crates/rm_bench/out/rm_bench}
trap 'rm -rf "$folder"' EXIT

[ -n "${PROGRAM:-}" ] || (cd "$here/crates/rm_bench" && rt run > /dev/null 2>&1) || { echo "rm_bench was not built" >&2; exit 1; }

# What the process does, and how what it left is looked at.
if [ -z "$jobs" ]; then work=(number) look=(count); else work=(cycle) look=(last); fi
words=(${jobs:+"$jobs"})

file=$folder/store
told=0      # the last number that was told, of this file
if [ -n "$jobs" ]; then
  # (a store with the jobs and a cycle, which no kill cuts off)
  "$program" cycle "$file" "$jobs" > "$folder/told" &
  process=$!
  until [ -s "$folder/told" ]; do sleep 0.1; kill -0 "$process" || { echo "no store with $jobs jobs was made" >&2; exit 1; }; done
  kill -9 "$process"
  wait "$process" 2> /dev/null || true
  told=$("$program" last "$file" "$jobs")
fi

# The generation of the store's current area: the greater one of its two halves.
generation() { for half in 0 2097152; do od -An -tu8 --endian=big -j $((half + 5)) -N 8 "$file"; done | sort -n | tail -1 | tr -d ' '; }

all=0       # how many were told, of all files
more=0      # how often the store had one more than was told
unmade=0    # how often no file was there yet
silent=0    # how often nothing was told by the process that was killed
lost=0
wrong=0
for ((kill = 0; kill < kills; kill++)); do
  longest=60000 # microseconds; a store with jobs takes longer to open, and to change its area
  [ -z "$jobs" ] || longest=400000
  if [ -z "$jobs" ] && ((kill % 20 == 0)); then
    rm -f "$file" "$file.new"
    told=0
    longest=15000
  fi
  : > "$folder/told" # (a process that is killed before it begins leaves what stands there)
  "$program" "${work[@]}" "$file" "${words[@]}" > "$folder/told" &
  process=$!
  sleep "$(printf '0.%06d' $((RANDOM * longest / 32768)))"
  kill -9 "$process" 2> /dev/null || true
  wait "$process" 2> /dev/null || true
  [ -e "$file" ] || unmade=$((unmade + 1))
  last=
  # (a line that the kill cut off has no end, and was not told)
  while read -r number; do last=$number; done < "$folder/told"
  if [ -n "$last" ]; then
    all=$((all + last - told))
    told=$last
  else
    silent=$((silent + 1))
  fi
  if ! found=$("$program" "${look[@]}" "$file" "${words[@]}"); then
    wrong=$((wrong + 1))
    echo "kill $kill: the store is not what was appended" >&2
    continue
  fi
  if ((found < told)); then
    lost=$((lost + told - found))
    echo "kill $kill: $told were told, and $found are there" >&2
  elif ((found == told + 1)); then
    more=$((more + 1))
  elif ((found > told)); then
    wrong=$((wrong + 1))
    echo "kill $kill: $told were told, and $found are there" >&2
  fi
  told=$found
done
if [ -z "$jobs" ]; then
  echo "$kills kills: $all operations told, $more times one more was there, $silent processes told nothing, $unmade left no file"
else
  echo "$kills kills over $jobs jobs: $all cycles told, $more times one more was there, $silent processes told nothing, $(generation) generations"
fi
echo "$lost lost, $wrong stores wrong"
((lost == 0 && wrong == 0))
