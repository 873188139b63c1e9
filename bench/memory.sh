#!/bin/bash
# Refuses the program one allocation in each run, every one of them in turn, and looks at what that comes to.
#
#   bench/memory.sh [PROGRAM [STEP [LAST]]]     crates/yewendro/out/yewendro, every allocation, and all of them, if nothing is said
#   bench/memory.sh --try NUMBER..              these allocations of the first case alone, by `rt try --fail-alloc NUMBER`
#
# The cases are a submission and its reports (the script of the program's stored run), in memory and over a
# file; the job of examples/job.txt, whose manager dies amid it, over a file; two lives of examples/script.txt over a file; the
# listing of what these two left; the submission over a file whose first area is full of Epochs, so that the first operation
# changes the area; and the submission by workers. Of each run it looks at this:
#
# - It ends by itself with status 11; or with 0 where the refused allocation was one that is done without, or with 7 where the
#   device in the file found none and says so.
# - Its page is a beginning of the page of a run to which nothing is refused, and with status 0 that page. That of workers has
#   another order in each run, and isn't compared.
# - The store that is left lists a beginning of what that run's store lists, and in it all that the page says is kept. Over the
#   full file it lists what is left of its Epochs and of the first of that run's operations, with all that the page says is kept.
# - The same call once more, with all memory, has status 0.
#
# A run that goes wrong is told with its number, by which it can be done again (bench/refuse.c says how). It prints a table;
# the last line is `N held, M failed`, and the status is 0 where M is 0.
#
# The program is the proved one, and bench/refuse.c, which cc builds, refuses the allocations: so a run with what is looked at
# behind it takes some 20 milliseconds, over the full file some hundreds, which python3 makes; and all cases some minutes. `rt try` refuses an allocation of a program that is compiled
# with checks of each access, but compiles it anew for each number, in more than a minute.
set -uo pipefail

here=$(cd "$(dirname "$0")/.." && pwd)

usage() { sed -n 's/^#   bench/usage: bench/p' "$0" >&2; exit 1; }

is_number() { [[ $1 =~ ^[1-9][0-9]*$ ]]; }

by_try=()
if [ "${1:-}" = --try ]; then
  shift
  [ $# -gt 0 ] || usage
  for number in "$@"; do is_number "$number" || usage; done
  by_try=("$@")
else
  [ $# -le 3 ] || usage
  program=$(realpath "${1:-$here/crates/yewendro/out/yewendro}")
  step=${2:-1}
  last=${3:-999999999}
  is_number "$step" && is_number "$last" || usage
  [ -x "$program" ] || { echo "no program at $program" >&2; usage; }
fi

# (in memory, where the system has such a folder: the file's syncs cost nothing there)
if [ -w /dev/shm ]; then folder=$(mktemp -d /dev/shm/memory.XXXXXX); else folder=$(mktemp -d); fi
trap 'rm -rf "$folder"' EXIT
mkdir "$folder/case"
cd "$folder/case" || exit 1
cp "$here/examples/cluster.json" "$here/examples/job.txt" "$here/examples/script.txt" .
sed '/^crash/,$d' script.txt > submission.txt

held=0
failed=0
rows=()   # of the table

# What a file holds, into the variable of that name, each byte of it.
content() { IFS= read -r -d '' "$1" < "$2"; }

# Runs the program by these words for 20 seconds at most, with the allocation of a number refused, and none for 0.
runs() {
  local number=$1
  shift
  timeout -k 2 20 env REFUSE="$number" COUNTED="$folder/counted" LD_PRELOAD="$folder/refuse.so" "$program" "$@" \
    < /dev/null > page 2> told
  status=$?
}

# What is left of a list of operations that removes nothing: of its Epochs the last one.
left_of() {
  awk '/^kept epoch /{ delete line[last]; last = NR } { line[NR] = $0 } END { for (at = 1; at <= NR; at++) if (at in line) print line[at] }'
}

# What the store lists, into the variable of that name, by a call to which nothing is refused; of a store that was full, what is
# left of it.
lists() {
  "$program" store --file < /dev/null > list 2> listed || wrong "the store isn't one any more: $(head -c 200 listed)"
  if [ -n "$full" ]; then
    left_of < list > left
    mv left list
  fi
  content "$1" list
}

# Whether what is left of this, and of the first operations of the whole run, is what the store lists; at least so many of them.
is_left_of() {
  local many
  for ((many = $2; many <= operations; many++)); do
    { printf %s "$1"; kept_of "$whole_page"; head -n "$many" <<< "${kept%$'\n'}"; } | left_of | cmp -s - list && return
  done
  return 1
}

wrong() { wrongs+=$'\n'"    $*"; }

# A case begins over this store, or over none.
begin() {
  rm -f rm.store rm.store.new
  [ -z "$1" ] || cp "$1" rm.store
}

# The lines of a page that say what is kept, of those that are whole.
kept_of() {
  local line
  kept=
  [[ $1 == *$'\n'* ]] || return
  while IFS= read -r line; do
    [[ $line != "kept "* ]] || kept+=$line$'\n'
  done <<< "${1%$'\n'*}"
}

# Looks at a run that ended, in which the allocation was refused.
look() {
  local seen store kept
  case $status in
    0) done_without=$((done_without + 1)) ;;
    7) grep -q 'out of memory$' told && of_device=$((of_device + 1)) || wrong "status 7: $(head -c 200 told)" ;;
    11) ;;
    *) wrong "status $status: $(head -c 200 told)" ;;
  esac
  content seen page
  if [ "$1" != threads ]; then
    [[ $whole_page == "$seen"* ]] || wrong "the page is no beginning of the whole one: $(tail -n 1 page)"
    [ "$status" -ne 0 ] || [ "$seen" = "$whole_page" ] || wrong "status 0 and not the whole page"
  fi
  [ "$device" = file ] || return
  lists store
  kept_of "$seen"
  if [ -n "$full" ]; then
    is_left_of "$before" "$(grep -c . <<< "$kept")" || wrong "the store lists something else: $(tail -n 1 list)"
  else
    [[ $whole_store == "$store"* ]] || wrong "the store lists what was never kept: $(tail -n 1 list)"
    [ "$1" = store ] || [[ $store == "$before$kept"* ]] || wrong "the store lacks what the page says is kept"
  fi
  runs 0 "$@"
  [ "$status" -eq 0 ] || wrong "the same call once more has status $status: $(head -c 200 told)"
}

# A case by its name, its device, which is memory or file, the store that it begins over, and its words.
try_case() {
  local name=$1 device=$2 over=$3 number tried=0 done_without=0 of_device=0 failures=0 counted refused wrongs
  shift 3
  local whole_page whole_store= before= full= operations kept
  wrongs=
  [ "$over" != "$folder/full" ] || full=yes
  begin "$over"
  [ -z "$over" ] || lists before
  runs 0 "$@"
  [ "$status" -eq 0 ] || wrong "with nothing refused the status is $status"
  content whole_page page
  operations=$(grep -c '^kept ' page)
  read -r counted refused < "$folder/counted"
  [ "$counted" -gt 0 ] || wrong "no allocation was seen"
  [ "$device" = memory ] || lists whole_store
  if [ -n "$wrongs" ]; then
    failed=$((failed + 1))
    echo "FAILED $name:$wrongs"
    return
  fi
  for ((number = 1; number <= last; number += step)); do
    wrongs=
    begin "$over"
    echo 0 0 > "$folder/counted"
    runs "$number" "$@"
    read -r counted refused < "$folder/counted"
    # (a run that was ended from outside tells no counts)
    [ "$status" -eq 0 ] && [ "$refused" -eq 0 ] && break
    [ "$refused" -eq 1 ] || wrong "it ended before it was refused anything"
    look "$@"
    tried=$((tried + 1))
    if [ -z "$wrongs" ]; then
      held=$((held + 1))
    else
      failures=$((failures + 1))
      failed=$((failed + 1))
      echo "FAILED $name, allocation $number:$wrongs"
    fi
  done
  rows+=("| $name | $tried | $((tried - done_without - of_device - failures)) | $done_without | $of_device | $failures |")
}

# Makes a store whose first area has no room for one more operation: a generation, and the records of Epochs that follow each other.
make_full() {
  python3 - "$1" << 'END'
import struct, sys

half = 2097152
record = lambda payload: struct.pack(">BI", 1, len(payload)) + payload
content = record(struct.pack(">Q", 1))
for number in range(1, (half - len(content)) // 18 + 1):
    content += record(struct.pack(">BIQ", 1, number, number))
with open(sys.argv[1], "wb") as file:
    file.write(content.ljust(2 * half, b"\0"))
END
}

# The first case by the kit: the program is compiled with checks, for each number anew.
try_by_kit() {
  local number whole seen status
  cd "$here/crates/yewendro" || exit 1
  local words=(--data "cluster.json=$folder/case/cluster.json" --data "submission.txt=$folder/case/submission.txt")
  whole=$(rt try "${words[@]}" -- plain cluster.json submission.txt 2> /dev/null) || { echo "rt try has no page" >&2; exit 1; }
  for number in "${by_try[@]}"; do
    seen=$(rt try --fail-alloc "$number" "${words[@]}" -- plain cluster.json submission.txt 2> "$folder/told")
    status=$?
    if { [ "$status" -eq 11 ] && [[ $whole == "$seen"* ]]; } || { [ "$status" -eq 0 ] && [ "$seen" = "$whole" ]; }; then
      held=$((held + 1))
      echo "allocation $number: status $status"
    else
      failed=$((failed + 1))
      echo "FAILED allocation $number: status $status, $(tail -n 1 "$folder/told")"
    fi
  done
}

if [ ${#by_try[@]} -gt 0 ]; then
  try_by_kit
else
  cc -O2 -shared -fPIC "$here/bench/refuse.c" -o "$folder/refuse.so" || { echo "bench/refuse.c was not built" >&2; exit 1; }
  try_case "a submission, in memory" memory "" plain cluster.json submission.txt
  try_case "a submission, over a file" file "" plain cluster.json submission.txt --file
  try_case "the job, over a file" file "" plain cluster.json job.txt --file
  try_case "two lives, over a file" file "" plain cluster.json script.txt --file
  begin ""
  runs 0 plain cluster.json job.txt --file
  runs 0 plain cluster.json script.txt --file
  cp rm.store "$folder/store"
  try_case "a listing" file "$folder/store" store --file
  make_full "$folder/full" || { echo "no full store was made" >&2; exit 1; }
  try_case "a submission that changes the area of a file" file "$folder/full" plain cluster.json submission.txt --file
  try_case "a submission by workers, over a file" file "" threads cluster.json submission.txt --file
  echo "| case | runs, each with one allocation refused | status 11 | done without it | status 7 | failed |"
  echo "|---|---|---|---|---|---|"
  printf '%s\n' "${rows[@]}"
fi
echo "$held held, $failed failed"
[ "$failed" -eq 0 ]
