#!/bin/bash
# Measures what each message, event and pass costs, and a restart, in small settings and in large ones, and prints tables:
#
#   bench/manager.sh [FOLDER [SETTING..]]           what each row takes, in these settings or in all
#   bench/manager.sh --profile SETTING [FOLDER]     the functions in which the instructions of each row are spent
#   bench/manager.sh --page [FOLDER]                what the log and the page of many lives need
#   bench/manager.sh --holds [FOLDER]               what a hold of the baton costs in the mode `threads`, beside the same run by `plain`
#
# FOLDER is a folder in which a new one is made and removed again, the current one if none is said. A setting is what stands before: 100
# or 10,000 applications, going on or remembered, 10 or 5,000 nodes, 100 or 50,000 containers, with 10 applications removed before the
# others or with none. Over each, bench/manager.py makes the same script (it says there what a row does): registers and beats with nothing,
# 256 and 1,000 containers, passes that grant nothing, 1 and 256, asks, releases, ends, expiries, kills, retirements, and a restart behind
# which all nodes and masters come back. The scripts stand within the limits of docs/FORMATS.md and are made anew each time.
#
# Of each script the page is looked at first: every message has to be answered as meant, and as many containers granted, taken in and
# ended, for one reason or another. The instructions are those between a row's first message and its `settle`, by as many messages as the
# row has; they are the same in each run. callgrind counts them, and cuts its count where the manager enters the next part of the script.
# What reading a line takes and writing one of the page is told apart, for all lines of a script. The time is the processor's, and that of
# a whole message, from reading its line to writing those of the page: the difference of the script up to the end of a row and of that up to
# its beginning, the least of ROUNDS in the environment, 3 if nothing is said and none where it is 0. It is told of rows that take two
# milliseconds or more. What a whole script needs of memory is told by the system. COUNT=no leaves the instructions out, and REPEAT, as 0.01,
# shortens the rows of cheap messages, to try a change of the scripts.
#
# A hold's cost is told over 1,000 applications in the first of many lives, each of which accepts all of them anew. callgrind counts, over 40 lives, the holds, which are the puts of the baton, the takes,
# and what each of these takes alone; it runs one thread at a time, so that few takes find the baton out. The times, and how often a thread went to sleep and so had to be woken, are those of 300 lives,
# in ROUNDS rounds by turns with `plain`.
#
# It builds crates/yewendro by `rt run`, or takes a built one that PROGRAM in the environment names. It needs python3, and valgrind.
# The instructions of all settings take some twenty minutes of a processor, mostly for the last rows of 50,000 containers, and the times
# some half an hour.
set -euo pipefail

here=$(cd "$(dirname "$0")/.." && pwd)
program=${PROGRAM:-$here/crates/yewendro/out/yewendro}
mode=measure
words=("${ROUNDS:-3}")
case "${1:-}" in
  --profile)
    [ $# -ge 2 ] || { echo "usage: bench/manager.sh --profile SETTING [FOLDER]" >&2; exit 1; }
    mode=profile
    words=("$2")
    parent=${3:-$PWD}
    ;;
  --page)
    mode=page
    words=()
    parent=${2:-$PWD}
    ;;
  --holds)
    mode=holds
    parent=${2:-$PWD}
    ;;
  *)
    parent=${1:-$PWD}
    words+=("${@:2}")
    ;;
esac

[ -n "${PROGRAM:-}" ] || (cd "$here/crates/yewendro" && rt run -- store > /dev/null 2>&1) || { echo "yewendro was not built" >&2; exit 1; }
[ -x "$program" ] || { echo "no program at $program" >&2; exit 1; }
program=$(realpath "$program")
folder=$(mktemp -d "$parent/manager.XXXXXX")
trap 'rm -rf "$folder"' EXIT

echo "- $(date -u +%Y-%m-%d), $(uname -sr), $(awk -F': ' '/model name/ {print $2; exit}' /proc/cpuinfo), $(nproc) processors"
echo "- $(rt version 2> /dev/null | head -n 1)"
echo
python3 "$here/bench/manager.py" "$mode" "$program" "$folder" "${words[@]}"
