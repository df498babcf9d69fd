#!/usr/bin/env bash
# Replays 20 MiB of records where the system lends no more than 4 GiB of address space, which
# `rt ci` cannot ask for: the call ends with status 0. A replay's disk has room for all calls that
# it may get, which goes by its lines and pages.
#
#     tests/by_hand/replay_memory.sh            tries the program that the launcher ./pgwal built
#     tests/by_hand/replay_memory.sh PROGRAM    tries another build
#
# It is run by hand, outside `rt ci`. All is done in a temporary folder, which is removed. Prints a line for
# each check that failed, and at the end 'N passed, M failed'; its status is 1 where one failed.
source "$(dirname "${BASH_SOURCE[0]}")/checks.sh" || exit 1
program=$(realpath -e "${1:-$top/crates/pgwal/out/pgwal}") || exit 1
cd "$base" || exit 1

# script RECORDS BACKENDS DATA TURNS: so many records by so many backends, a flush, and a schedule
script() {
  awk -v records="$1" -v backends="$2" -v data="$3" -v turns="$4" 'BEGIN {
    for (b = 0; b < backends; b++) {
      if (b > 0) print "B"
      for (i = 0; i < int(records / backends); i++) print "I 7 10 00 " data
    }
    print "F\nS\n" turns
  }' >in
}

# replays NAME: status 0 and no complaint
replays() {
  local status
  (ulimit -v 4194304 && exec timeout 300 "$program" replay --seg $size <in >out 2>err)
  status=$?
  equal "$1" "$status $(cat err)" '0 '
}

# Records of 100 bytes, 26 of them before the data, whose backends have a turn.
for backends in 1 8; do
  script 209715 $backends '74*5a' 0*1
  replays "$backends backends"
done
script 209715 1 "$(printf '5a%.0s' {1..74})" 0*1
replays 'data digit by digit'

# Records of 200 bytes, of which the turns that a schedule may have play all.
script 104857 1 '174*5a' "$(printf '0*1000000 %.0s' {1..9})0*900000"
replays 'all turns'
equal 'all lines' "$(head -n 1 out)" 'backend 0 lines 104858 of 104858'
equal 'all records' "$(grep -c '^rmgr: ' out)" 104857
tell
