#!/usr/bin/env bash
# Refuses the built program each of its allocations in turn, one in a call, which `rt ci` cannot: the call
# ends with status 1 and says why. A run prints nothing then and leaves no folder, a listing or a replay
# prints a front of its lines, a redo and statistics print nothing, and a log that is there stays as it is.
#
#     tests/by_hand/refused_memory.sh            tries the program that the launcher ./pgwal built
#     tests/by_hand/refused_memory.sh PROGRAM    tries another build
#
# It is run by hand, outside `rt ci`. It asks for a C compiler (cc) and for Linux: refused_memory.c is
# loaded in front of the C library. All is done in a temporary folder, which is removed. Prints a line
# for each check that failed, and at the end 'N passed, M failed'; its status is 1 where one failed.
source "$(dirname "${BASH_SOURCE[0]}")/checks.sh" || exit 1
program=$(realpath -e "${1:-$top/crates/pgwal/out/pgwal}") || exit 1
cc -O1 -shared -fPIC -o "$base/refused_memory.so" "$top/tests/by_hand/refused_memory.c" -ldl || exit 1
cd "$base" || exit 1

# The log in this folder, if there is one: its files, and a sum of each.
log() { [ ! -d pg_wal ] || echo folder "$(find pg_wal -type f -exec sha256sum {} + | sort | xargs)"; }

# is_front FOUND WHOLE: the bytes of one file begin the other
is_front() { head -c "$(stat -c %s "$1")" "$2" | cmp -s - "$1" && echo front; }

# each_refused WORD..: calls the program with these words, `in` as its input, and its n-th allocation
# refused, for each n until a call meets no refusal. That one prints what the file `whole` has, one that
# was refused a front of the file `front`.
each_refused() {
  local number status before
  before=$(log)
  for ((number = 1; number < 10000; number++)); do
    REFUSED=$number LD_PRELOAD=$base/refused_memory.so timeout 60 "$program" "$@" <in >out 2>err
    status=$?
    [ $status = 1 ] || break
    equal "$1, allocation $number" "$status $(cat err) $(is_front out front) $(log)" \
      "1 pgwal: out of memory front $before"
  done
  cmp -s out whole
  equal "$1, none refused" "$status $?" '0 0'
  equal "$1, some refused" "$((number > 10))" 1
}

# alone WORD..: what the call prints with all its memory
alone() {
  "$program" "$@" <in >whole
  equal "$1 alone" $? 0
}

# writes COMMAND WORD..: a call that makes a log
writes() {
  rm -rf pg_wal
  alone "$@"
  rm -rf pg_wal
  : >front
  each_refused "$@"
}

# sums COMMAND WORD..: a call that leaves the log as it is, and prints nothing before it has read all
sums() {
  alone "$@"
  : >front
  each_refused "$@"
}

# lists COMMAND WORD..: a call that leaves the log as it is
lists() {
  alone "$@"
  cp whole front
  each_refused "$@"
}

printf 'C 700 0\nI 1 10 00 9000*5a\nB\nC 701 0\n' >in
writes run --seg $size
: >in
writes gen 10 --seg $size
lists dump --seg $size
sums dump --stats --seg $size
sums redo --seg $size
printf 'C 1 0\nB\nC 2 0\nS\n1*100000 0*100000\n' >in
lists replay --seg $size --crash old
tell
