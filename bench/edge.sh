#!/bin/bash
# Runs the program where the system gives it less than it asks for: descriptors that are closed, files without an end, few
# threads, little memory, a small stack, links and strange files in the store's place, a store that goes amid a run.
#
#   bench/edge.sh [PROGRAM]      crates/yewendro/out/yewendro, if nothing is said
#
# Each case runs in a new folder, which is removed. It looks at the exit status (docs/FORMATS.md has them), at the time that
# it took, and at the store that is left: it has to list what it listed before, or more. A case that fails is told with what
# was seen. Where this shell is root's, threads are refused to a process of nobody, since no limit holds for root. Below the
# cases it tells what small stacks came to, which is not tried. Where workers are refused they wait some seconds first, so
# that all takes about two minutes. The last line is `N passed, M failed`, and the status is 0 where M is 0.
set -uo pipefail

here=$(cd "$(dirname "$0")/.." && pwd)
program=${1:-$here/crates/yewendro/out/yewendro}
[ -x "$program" ] || { echo "no program at $program" >&2; exit 1; }
folder=$(mktemp -d)
trap 'rm -rf "$folder"' EXIT
chmod 755 "$folder"
cp "$program" "$folder/yewendro"
chmod 755 "$folder/yewendro"
program=$folder/yewendro
size=4194304 # bytes of a store

passed=0
failed=0
case=      # the name of the case
wrongs=    # what was seen in it that may not be
status=    # how the last run ended
seconds=   # how long it took

# A case begins in a folder of its own, with a cluster file and scripts.
begin() {
  case=$1
  wrongs=
  rm -rf "$folder/case"
  mkdir "$folder/case"
  chmod 777 "$folder/case"
  cd "$folder/case" || exit 1
  cp "$here"/examples/cluster.json "$here"/examples/script.txt "$here"/examples/job.txt .
}

wrong() { wrongs+=$'\n'"    $*"; }

end() {
  cd "$folder" || exit 1
  if [ -z "$wrongs" ]; then
    passed=$((passed + 1))
  else
    failed=$((failed + 1))
    echo "FAILED $case:$wrongs"
  fi
}

# Runs a command for so many seconds at most. Its page is the file `page`, and what it told the file `told`.
run() {
  local most=$1 began=$SECONDS
  shift
  { timeout -k 2 "$most" "$@" < /dev/null > page 2> told; } 2> /dev/null
  status=$?
  seconds=$((SECONDS - began))
}

# The last run ended with one of these.
wants() {
  local wanted
  for wanted in "$@"; do
    [ "$status" -eq "$wanted" ] && return
  done
  local seen="status $status"
  [ "$status" -eq 124 ] && seen="no end after $seconds seconds"
  ((status > 128 && status <= 192)) && seen="signal $((status - 128))"
  wrong "$seen, and not $(IFS=/; echo "$*"); it told: $(head -c 300 told 2> /dev/null)"
}

# What the store lists, into a file. It is there, and whole: it begins with an operation's byte.
list() {
  local first
  if ! timeout 20 "$program" store --file < /dev/null > "$1" 2> listed; then
    wrong "the store isn't one any more: $(head -c 300 listed)"
  fi
  [ -s "$1" ] || return
  first=$(od -An -N1 -tu1 rm.store | tr -d ' ')
  [ "$first" = 1 ] || wrong "the store begins with byte $first"
}

# The store lists what it listed before, or more.
wants_sound() {
  list after
  head -c "$(stat -c %s before)" after | cmp -s - before \
    || wrong "the store listed $(wc -l < before) operations and lists others now: $(head -n 3 after)"
  [ ! -e rm.store ] || [ "$(stat -L -c %s rm.store)" -eq $size ] \
    || wrong "the store has $(stat -L -c %s rm.store) bytes"
}

# A store with operations in it.
make_store() {
  run 20 "$program" plain cluster.json script.txt --file
  [ "$status" -eq 0 ] || wrong "no store could be made: status $status, $(head -c 300 told)"
  list before
  [ -s before ] || wrong "the store that was made is empty"
}

wants_same() { cmp -s "$1" "$2" || wrong "$3"; }

# The words of a mode over the files of a case.
words_of() {
  case $1 in
    store) echo "store --file" ;;
    *) echo "$1 cluster.json script.txt --file" ;;
  esac
}

# DESCRIPTORS

# Runs with one descriptor closed. `run` gives the others.
closed() {
  local number=$1
  shift
  run 30 bash -c "exec \"\$@\" $number>&-" closed "$@"
}

for mode in plain threads store; do
  read -ra words <<< "$(words_of "$mode")"
  for number in 0 1 2; do
    wanted=0
    [ "$number" -eq 1 ] && wanted=3
    begin "$mode with descriptor $number closed, over a store"
    make_store
    closed "$number" "$program" "${words[@]}"
    wants $wanted
    wants_sound
    end
    # A new store lists nothing, and nothing is written of it.
    [ "$mode" = store ] && wanted=0
    begin "$mode with descriptor $number closed, and no store yet"
    : > before
    closed "$number" "$program" "${words[@]}"
    wants $wanted
    wants_sound
    end
  done
done

# ENDLESS FILES

# Runs with so many KiB of addresses.
within() {
  local most=$1
  shift
  run 60 bash -c "ulimit -c 0; ulimit -v $most; exec \"\$@\"" within "$@"
}

# A file is refused with a status, in bounded time and memory.
refuses() {
  local name=$1 wanted=$2 cluster=$3 script=$4
  begin "$name"
  truncate -s 10G long.txt
  truncate -s 2G long.json
  within 512000 "$program" plain "$cluster" "$script"
  wants "$wanted"
  [ "$seconds" -le 20 ] || wrong "it took $seconds seconds"
  [ -s page ] && wrong "it wrote a page: $(head -n 1 page)"
  end
}

refuses "a script of 10 GiB" 5 cluster.json long.txt
refuses "an endless script" 5 cluster.json /dev/zero
refuses "a cluster file of 2 GiB" 4 long.json script.txt
refuses "an endless cluster file" 4 /dev/zero script.txt

# THREADS

# What a command begins with that is to run as nobody, where this shell is root's.
as_nobody=()
if [ "$(id -u)" -eq 0 ]; then
  as_nobody=(runuser -u nobody --)
  command -v setpriv > /dev/null && as_nobody=(setpriv --reuid=nobody --regid="$(id -g nobody)" --clear-groups)
fi

# Runs with so many processes of the user, threads counted.
with_processes() {
  local most=$1
  shift
  run 60 "${as_nobody[@]}" bash -c "ulimit -c 0; ulimit -u $most; exec \"\$@\"" limited "$@"
}

for most in 1 2 3 4 5 6 7; do
  begin "threads where $most may run"
  make_store
  [ "$(id -u)" -ne 0 ] || chown nobody rm.store
  with_processes "$most" "$program" threads cluster.json job.txt --file
  # (seven may be too few for a second life, since a thread that ended is counted for a moment more)
  if [ "$most" -eq 7 ]; then
    wants 0 11
  else
    wants 11
    grep -v '^opened ' page > behind
    [ ! -s behind ] || wrong "more than the life's opening was logged: $(head -n 1 behind)"
  fi
  wants_sound
  end
done

# MEMORY

# Whether the system can load the program at all in so many KiB: without words it ends with status 1.
loads() {
  within "$1" "$program"
  [ "$status" -eq 1 ]
}

for mode in plain store threads; do
  read -ra words <<< "$(words_of "$mode")"
  sizes=$(seq 2000 1000 24000; echo 32000 48000 64000 96000 128000)
  [ "$mode" = threads ] && sizes="8000 12000 16000 24000 32000 48000 64000 128000 512000"
  for most in $sizes; do
    loads "$most" || continue
    begin "$mode in $most KiB of addresses"
    make_store
    within "$most" "$program" "${words[@]}"
    wants 0 11
    wants_sound
    end
  done
done

# STACKS

# Arrays so deep, one in the other, as the value of a key of a cluster file.
deep() {
  local open close
  printf -v open '%*s' "$1" ''
  printf -v close '%*s' "$1" ''
  echo "{\"groups\": ${open// /[}${close// /]}}"
}

# Runs with a stack of so many KiB.
on_stack() {
  local most=$1
  shift
  run 60 env -i bash -c "ulimit -c 0; ulimit -s $most; exec \"\$@\"" stacked "$@"
}

for most in 96 128 256 1024 8192; do
  begin "plain on a stack of $most KiB"
  on_stack "$most" "$program" plain cluster.json job.txt
  wants 0
  end
  for depth in 126 127 200; do
    begin "a cluster file $depth deep on a stack of $most KiB"
    deep "$depth" > deep.json
    on_stack "$most" "$program" plain deep.json script.txt
    wants 4
    end
  done
done

# LINKS AND STRANGE FILES

begin "rm.store is a link to a store"
make_store
mv rm.store kept
ln -s kept rm.store
run 20 "$program" plain cluster.json script.txt --file
wants 0
[ -L rm.store ] || wrong "the link is gone"
[ "$(stat -c %s kept)" -eq $size ] || wrong "the store behind it has $(stat -c %s kept) bytes"
wants_sound
cmp -s before after && wrong "the run kept nothing"
end

begin "rm.store is a link to nothing"
ln -s nowhere rm.store
run 20 "$program" plain cluster.json script.txt --file
wants 7
[ -L rm.store ] || wrong "the link is gone"
[ ! -e nowhere ] || wrong "a file was made behind the link"
[ ! -e rm.store.new ] || wrong "rm.store.new was left"
end

begin "rm.store.new is a link to a file"
seq 1000 > precious
cp precious same
ln -s precious rm.store.new
run 20 "$program" plain cluster.json script.txt --file
wants 7
wants_same precious same "the file behind the link was changed"
[ ! -e rm.store ] || wrong "rm.store was made"
end

begin "a stale rm.store.new"
seq 1000 > rm.store.new
run 20 "$program" plain cluster.json script.txt --file
wants 0
[ ! -e rm.store.new ] || wrong "rm.store.new was left"
: > before
wants_sound
[ -s after ] || wrong "the run kept nothing"
end

begin "a foreign file of the store's size"
yes "what somebody else wrote" | head -c $size > rm.store
cp rm.store same
run 20 "$program" plain cluster.json script.txt --file
wants 7
wants_same rm.store same "the foreign file was changed"
run 20 "$program" store --file
wants 7
wants_same rm.store same "the foreign file was changed by store"
end

# A STORE THAT GOES AMID A RUN

# Stops a run as soon as its first operation is kept, does what is said to its store, and lets it go on.
amid() {
  local harm=$1 first process turn
  for _ in 1 2 3 4 5 6 7 8 9 10; do
    rm -f rm.store rm.store.new
    "$program" soak 1000 --file < /dev/null > page 2> told &
    process=$!
    first=
    while kill -0 "$process" 2> /dev/null; do
      IFS= LC_ALL=C read -r -d '' -n 1 first 2> /dev/null < rm.store
      [ "$first" = $'\x01' ] && break
    done 2> /dev/null
    kill -STOP "$process" 2> /dev/null && break
    wait "$process"
    process=
  done
  [ -n "$process" ] || { wrong "the run ended before its store could be changed"; return; }
  "$harm"
  kill -CONT "$process"
  for ((turn = 0; turn < 600; turn++)); do
    kill -0 "$process" 2> /dev/null || break
    sleep 0.1
  done
  kill -9 "$process" 2> /dev/null && wrong "no end after 60 seconds"
  wait "$process" 2> /dev/null
  status=$?
}

remove() { rm rm.store; }
replace() { mv other rm.store; }
cut_off() { truncate -s 1000 rm.store; }

begin "a store that is removed amid a run"
amid remove
wants 7
[ ! -e rm.store ] || wrong "rm.store is there again"
end

begin "a store that is replaced amid a run"
make_store
cp rm.store other
cp rm.store same
amid replace
wants 7
wants_same rm.store same "the other store was changed"
end

begin "a store that is cut amid a run"
amid cut_off
wants 7
end

# A FIRST START THAT IS KILLED

for ((kill = 0; kill < 40; kill++)); do
  begin "a first start that is killed, $kill"
  "$program" plain cluster.json script.txt --file < /dev/null > page 2> told &
  process=$!
  sleep "$(printf '0.%06d' $((RANDOM * 15000 / 32768)))"
  kill -9 "$process" 2> /dev/null
  wait "$process" 2> /dev/null
  left=$(echo rm.store*)
  : > before
  run 20 "$program" plain cluster.json script.txt --file
  wants 0
  wants_sound
  [ -z "$wrongs" ] || wrong "the kill left: $left"
  end
done

# What smaller stacks come to is told, and not tried.
begin "small stacks"
deep 127 > deep.json
for most in 32 48 64 80; do
  on_stack "$most" "$program" plain cluster.json job.txt
  plain=$status
  on_stack "$most" "$program" plain deep.json script.txt
  echo "on a stack of $most KiB: plain ends with status $plain, and over JSON 127 deep with $status"
done
for most in 64 96 128; do
  on_stack "$most" "$program" threads cluster.json job.txt
  echo "on stacks of $most KiB: threads ends with status $status"
done
cd "$folder" || exit 1

echo "$passed passed, $failed failed"
[ "$failed" -eq 0 ]
