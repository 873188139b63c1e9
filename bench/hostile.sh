#!/bin/bash
# Changes bytes of cluster files, scripts, schedules and stores at random, runs the program over them, and looks for what must
# never be.
#
#   bench/hostile.sh [PROGRAM [CASES [SEED [FIRST]]]]     crates/yewendro/out/yewendro, 10000, 1 and 1, if nothing is said
#
# CASES cases are tried, numbered from FIRST on; SEED and a number determine a case, whatever else is tried. The files are those
# of examples/, the schedules and the stores those of runs over them. What must never be:
#
# - an end by a signal, or none in 20 seconds; a status that docs/FORMATS.md doesn't list;
# - a page that isn't a list of whole lines of its kinds; a page where a file was refused;
# - a byte on standard error that isn't printable; a status other than 0 that isn't told there;
# - a store that was refused and changed; one that the program closed, and that a later call can't open;
# - an operation that a store listed, or that the page says is kept, and that a later call doesn't list.
#
# A case that goes wrong is told with its number and its words; with CASES 1 its folder stays, so that
# `bench/hostile.sh PROGRAM 1 SEED NUMBER` leaves all files of the case. It prints a table of the statuses that came; the last
# line is `N passed, M failed`, and the status is 0 where M is 0. It needs python3. On four processors 10,000 cases take some
# minutes.
set -euo pipefail

here=$(cd "$(dirname "$0")/.." && pwd)

usage() { sed -n 's/^#   bench/usage: bench/p' "$0" >&2; exit 1; }

is_number() { [[ $1 =~ ^[0-9]+$ ]]; }

[ $# -le 4 ] || usage
program=${1:-$here/crates/yewendro/out/yewendro}
cases=${2:-10000}
seed=${3:-1}
first=${4:-1}
is_number "$cases" && is_number "$seed" && is_number "$first" || usage
[ -x "$program" ] || { echo "no program at $program" >&2; usage; }
exec python3 "$here/bench/hostile.py" "$(realpath "$program")" "$here/examples" "$cases" "$seed" "$first"
