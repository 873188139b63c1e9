#!/bin/bash
# Makes images of what a loss of power may leave of a store in a file, at random moments of a run, and opens each.
#
#   bench/power.sh [PROGRAM [IMAGES [SEED]]]     crates/yewendro/out/yewendro, 10000 and 1, if nothing is said
#
# The run keeps some 3,400 jobs, and ends and removes 1,200 others, so that its store changes its area several times. Of each
# write and sync of its file bench/record.c tells (cc builds it). An image is what the file may hold before one of these
# calls, by the model of a disk that docs/FORMATS.md has: what was written before the last sync is there; of what was written
# since, each sector of 512 bytes has none, some or all of its writes, in one image of three cut off at any byte, in another with
# any bytes in place of those that were written. Half of the images fall amid a change of area. SEED and the program determine
# them.
#
# Of each image the program lists the store. What is left of the list, and of the operations that were acknowledged before
# that call, or of these and the next one, has to be the same. The last line is `N images, M lost`, and the status is 0 where M is
# 0. It needs cc and python3; on four processors 10,000 images take some minutes.
set -euo pipefail

here=$(cd "$(dirname "$0")/.." && pwd)

usage() { sed -n 's/^#   bench/usage: bench/p' "$0" >&2; exit 1; }

is_number() { [[ $1 =~ ^[0-9]+$ ]]; }

[ $# -le 3 ] || usage
program=$(realpath "${1:-$here/crates/yewendro/out/yewendro}")
images=${2:-10000}
seed=${3:-1}
is_number "$images" && is_number "$seed" || usage
[ -x "$program" ] || { echo "no program at $program" >&2; usage; }

# (in memory, where the system has such a folder: the file's syncs cost nothing there)
if [ -w /dev/shm ]; then folder=$(mktemp -d /dev/shm/power.XXXXXX); else folder=$(mktemp -d); fi
trap 'rm -rf "$folder"' EXIT

cc -O2 -shared -fPIC "$here/bench/record.c" -o "$folder/record.so" -ldl || { echo "bench/record.c was not built" >&2; exit 1; }

live=3400
removed=1200
list=$(printf 'u%.0s' {1..512})
job() { printf 'client alice new\nclient alice submit application_1_%04d queue=root.default name=job memory=1024 vcores=1 attempts=0 modify=%s\n' "$1" "$list"; }
{
  echo "start 1"
  for ((number = 1; number <= live; number++)); do job "$number"; echo settle; done
  for ((number = live + 1; number <= live + removed; number++)); do
    job "$number"
    printf 'settle\nclient alice kill application_1_%04d\nsettle\n' "$number"
  done
} > "$folder/script"
echo '{"max_completed": 1}' > "$folder/cluster"
cd "$folder"
"$program" store --file > nothing 2> told # (a new file, whose making is no part of the record)
cp rm.store empty.store
RECORD=$folder/record LD_PRELOAD=$folder/record.so "$program" plain cluster script --file > page 2> told || { cat told >&2; exit 1; }
exec python3 "$here/bench/power.py" "$program" "$folder" "$images" "$seed"
