#!/bin/bash
# Writes a script that fills a store: 3,700 jobs whose access lists are as long as may be, 571 bytes each, into areas of
# 2,097,152. All of them go on, so that none can be left out. With cluster.json. Look at
# - the exit status, 9, and the line on standard error: how many bytes the next job needs, and how many are left;
# - the last lines of the page: the job that didn't fit is `issued`, and not `kept`;
# - a second run over the same file, by --file: what was kept before is there.
#
#   examples/full-store.sh > full.txt; crates/yewendro/out/yewendro plain examples/cluster.json full.txt --file | tail -2
set -eu
list=$(printf 'u%.0s' {1..512})
echo "start 1410901177871"
for number in {1..3700}; do
  echo "client alice new"
  printf 'client alice submit application_1410901177871_%04d queue=root.default name=job memory=1024 vcores=1 attempts=0 modify=%s\n' "$number" "$list"
  echo settle
done
