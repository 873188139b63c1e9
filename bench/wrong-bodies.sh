#!/bin/bash
# Tries the wrong bodies that the gate leaves out, those in crates/NAME/wrong-bodies: the prover has to refuse each.
#
#   bench/wrong-bodies.sh [NAME..]      those of the crates that are named, or of all
#
# A wrong body is a file in the form of the gate's must-fail edits. The crates are proved and built first, where no
# earlier check built them in this checkout as they are committed. Then the wrong bodies of so many crates are tried
# side by side as JOBS in the environment says, or as there are processors, those of different functions together
# (bench/wrong_bodies.py says how). It works in a clone of what is committed, in a new folder that it removes,
# so this checkout stays as it is. The last line is `N refused, M proved`, where what could not be tried counts as
# proved and is told above, and the status is 0 where M is 0. It needs `rt` and `python3` on the path.
set -euo pipefail

here=$(cd "$(dirname "$0")/.." && pwd)
jobs=${JOBS:-$(nproc)}
folder=$(mktemp -d)
trap 'rm -rf "$folder"' EXIT

git clone -q "$here" "$folder/clone"
cd "$folder/clone"

crates=()
for bodies in crates/*/wrong-bodies; do
  crate=$(basename "$(dirname "$bodies")")
  if [ $# -eq 0 ] || [[ " $* " == *" $crate "* ]]; then
    crates+=("$crate")
    rm -rf "crates/$crate/must-fail"
    mv "$bodies" "crates/$crate/must-fail"
  fi
done
if [ ${#crates[@]} -eq 0 ]; then
  echo "no crate of that name has wrong bodies" >&2
  exit 1
fi
# The largest come first, so that the end doesn't wait for one of them.
mapfile -t crates < <(for crate in "${crates[@]}"; do du -sb "crates/$crate"; done | sort -rn | sed 's|.*/||')

for built in "$here"/crates/*/out/rlib "$here"/crates/*/out/incremental; do
  [ -d "$built" ] || continue
  out=crates/$(basename "$(dirname "$(dirname "$built")")")/out
  mkdir -p "$out"
  cp -a "$built" "$out/"
done
for crate in "${crates[@]}"; do
  (cd "crates/$crate" && rt lib > built.txt 2>&1) || { cat "crates/$crate/built.txt" >&2; exit 1; }
done

# Each crate has a checkout of its own, for its sources change meanwhile; what is built below it is shared by links. Its lines
# are told once all of its wrong bodies were tried.
try() {
  cp -al "$folder/clone" "$folder/$1"
  rm -rf "$folder/$1/crates/$1/out"
  cp -a "$folder/clone/crates/$1/out" "$folder/$1/crates/$1/"
  (cd "$folder/$1" && python3 bench/wrong_bodies.py "$1") > "$folder/clone/$1.txt" 2>&1 || true
  rm -rf "${folder:?}/$1"
  cat "$folder/clone/$1.txt"
}
export -f try
export folder
printf '%s\n' "${crates[@]}" | xargs -P "$jobs" -I{} bash -c 'try {}'

refused=0
all=0
for crate in "${crates[@]}"; do
  all=$((all + $(find "crates/$crate/must-fail" -name '*.edit' | wc -l)))
  refused=$((refused + $(sed -n 's/^\([0-9]*\) refused, .*/\1/p' "$crate.txt" | tail -1)))
done
echo "$refused refused, $((all - refused)) proved"
[ "$refused" -eq "$all" ]
