#!/usr/bin/env bash
# Tries the built program where `rt ci` cannot: standard streams that are closed, two runs side by
# side in one folder, names that are in the way, segments that were lost or cut or cannot be opened,
# what a run leaves in its folder, and little memory.
#
#     tests/by_hand/program.sh            tries what the launcher ./pgwal starts
#     tests/by_hand/program.sh PROGRAM    tries another build
#
# It is run by hand, outside `rt ci`. Each check has a folder of its own below a temporary one,
# which is removed. Prints a line for each check that failed, and at the end 'N passed, M failed';
# its status is 1 where one failed.
source "$(dirname "${BASH_SOURCE[0]}")/checks.sh" || exit 1
program=$(realpath -e "${1:-$top/pgwal}") || exit 1
segment=pg_wal/000000010000000000000001

run() { "$program" run --seg $size "$@"; }
dump() { "$program" dump --seg $size; }
send() { "$program" send --seg $size "$@"; }
receive() { "$program" receive --seg $size "$@"; }

# fresh: an empty folder of the next check's own, as the working directory
fresh() {
  mkdir "$base/$((passed + failed))" && cd "$base/$((passed + failed))" || exit 1
}

# commits FIRST COUNT: so many commits, by transactions from this one on
commits() {
  local xid
  for ((xid = $1; xid < $1 + $2; xid++)); do echo "C $xid 0"; done
}

# transactions: those whose commits the log lists, in a line
transactions() { dump | sed -n 's/.* tx: *\([0-9]*\),.*COMMIT.*/\1/p' | xargs; }

# ends_with NAME STATUS WORD..: a command by these words, with the file `in` as its input, ends so,
# tells nothing durable, and leaves the files of the folder as they were
ends_with() {
  local name=$1 status=$2
  shift 2
  find pg_wal -type f -exec sha256sum {} + | sort >before
  "$@" --seg $size <in >out 2>err
  equal "$name: the status" $? "$status"
  equal "$name: nothing is told hard" "$(grep -c hard out)" 0
  find pg_wal -type f -exec sha256sum {} + | sort | cmp -s before -
  equal "$name: the files are as they were" $? 0
}

# plainly WORD..: a command of whose user files ask permission, also where that is root
plainly() {
  if [ "$(id -u)" = 0 ]; then
    setpriv --bounding-set -dac_override,-dac_read_search "$@"
  else
    "$@"
  fi
}

said_in_the_log() { grep -aqE 'records|hard|pgwal' pg_wal/* && echo said || echo silent; }

a_run_tells_its_commits() {
  fresh
  equal 'a run tells its commits' "$(commits 700 3 | run --list)" \
'0 1 hard 0/00100028 0/00100050 3
0 2 hard 0/00100050 0/00100078 5
0 3 hard 0/00100078 0/001000A0 7
records 3 commits 3 bytes 120 end 0/001000A0 segments 1'
  equal 'dump lists them' "$(transactions)" '700 701 702'
  equal 'one file is left' "$(ls pg_wal)" 000000010000000000000001
  cp $segment kept
  commits 800 3 | run >out 2>err
  equal 'a second run finds a log' $? 9
  equal 'and prints nothing' "$(cat out)" ''
  cmp -s kept $segment
  equal 'and leaves it as it is' $? 0
}

a_replay_lists_what_its_crash_leaves() {
  fresh
  equal 'a replay: its backends and its log' \
    "$(printf 'C 1 0\nB\nC 2 0\nS\n1*100000 0*100000\n' | "$program" replay --seg $size --crash old)" \
'backend 0 lines 1 of 1
backend 1 lines 1 of 1
rmgr: Transaction len (rec/tot):     34/    34, tx:          2, lsn: 0/00100028, prev 0/00000000, desc: COMMIT data 0000000000000000
rmgr: Transaction len (rec/tot):     34/    34, tx:          1, lsn: 0/00100050, prev 0/00100028, desc: COMMIT data 0000000000000000'
  equal 'a replay makes no folder' "$(ls -d pg_wal 2>/dev/null)" ''
}

closed_streams_fail() {
  fresh
  echo 'I 1 10 00 8123*5a' | run --list >&-
  equal 'closed output: a fault of the sink' $? 8
  equal 'closed output: nothing of it in the log' "$(said_in_the_log)" silent
  fresh
  run <&- 2>err
  equal 'closed input: a fault of the source' $? 7
  equal 'closed input: no folder is made' "$(ls -d pg_wal 2>/dev/null)" ''
  fresh
  commits 700 3 | run >out 2>&-
  equal 'closed error output: the run goes on' $? 0
  commits 700 3 | run >out 2>&-
  equal 'closed error output: the status tells' $? 9
  equal 'closed error output: nothing of it in the log' "$(said_in_the_log)" silent
  equal 'closed error output: the log is whole' "$(transactions)" '700 701 702'
  fresh
  run <&- >&- 2>&-
  equal 'all closed: a fault of the source' $? 7
}

full_output_fails() {
  fresh
  commits 700 3 | run --list >/dev/full 2>err
  equal 'full output: a fault of the sink' $? 8
  equal 'full output: the log is whole' "$(transactions)" '700 701 702'
}

a_pipe_in_a_segments_place_is_a_fault() {
  fresh
  mkdir pg_wal && mkfifo $segment
  commits 700 3 | timeout 20 "$program" run --seg $size >out 2>err
  equal 'a pipe for a segment: a run ends with a fault of the disk' $? 4
  timeout 20 "$program" dump --seg $size >out 2>err
  equal 'a pipe for a segment: a listing ends with a fault of the disk' $? 4
  equal 'a pipe for a segment: it prints nothing' "$(cat out)" ''
}

# three_segments: a log of a commit in each of three segments, its frames beside it, and one commit
# more as the file `in`
three_segments() {
  fresh
  printf 'C 1 0\nW\nC 2 0\nW\nC 3 0\n' | run >out
  send >frames
  commits 9 1 >in
}

a_lost_segment_is_not_made_again() {
  three_segments
  rm pg_wal/000000010000000000000002
  ends_with 'segment 2 lost: a run that goes on' 4 "$program" run --append --list
  equal 'segment 2 lost: its first commit' "$(transactions)" 1
  cp frames in
  ends_with 'segment 2 lost: a copy' 4 "$program" receive
  three_segments
  rm $segment
  ends_with 'segment 1 lost: a run' 4 "$program" run --list
  ends_with 'segment 1 lost: a run of made lines' 4 "$program" gen 10
  ends_with 'segment 1 lost: a run that goes on' 4 "$program" run --append --list
  cp frames in
  ends_with 'segment 1 lost: a copy' 4 "$program" receive
  ends_with 'segment 1 lost: a listing' 0 "$program" dump
  equal 'segment 1 lost: a listing prints nothing' "$(cat out)" ''
  ends_with 'segment 1 lost: a listing from segment 2 on' 0 "$program" dump --start 0/00200000
  equal 'segment 1 lost: a listing from segment 2 on prints' "$(grep -c COMMIT out)" 2
}

a_cut_segment_is_not_gone_on_with() {
  local number
  for number in 1 3; do
    three_segments
    truncate -s 500000 pg_wal/00000001000000000000000$number
    ends_with "segment $number cut: a run that goes on" 4 "$program" run --append --list
    ends_with "segment $number cut: a log is sent" 4 "$program" send
    ends_with "segment $number cut: a run" 9 "$program" run --list
    cp frames in
    ends_with "segment $number cut: a copy" 4 "$program" receive
  done
  ends_with 'segment 3 cut: a listing' 0 "$program" dump
  equal 'segment 3 cut: a listing prints' "$(grep -c COMMIT out)" 3
}

# What cannot be opened is not taken for a segment that is not there.
a_segment_that_cannot_be_opened_is_a_fault() {
  local words all=('run --list' 'run --append --list' 'gen 10' receive dump redo send)
  three_segments
  chmod 000 $segment
  for words in "${all[@]}"; do
    ends_with "no permission for a segment: $words" 4 plainly "$program" $words
  done
  chmod 600 $segment
  chmod 000 pg_wal
  for words in "${all[@]}"; do
    plainly "$program" $words --seg $size <in >out 2>err
    equal "no permission for the folder: $words" $? 4
  done
  chmod 700 pg_wal
  # Its streams, the folder, and no file more.
  for words in 'run --list' 'run --append --list' 'gen 10' receive send; do
    ends_with "too many open files: $words" 4 prlimit --nofile=4 "$program" $words
  done
  rm $segment
  ln -s 000000010000000000000001 $segment
  for words in "${all[@]}"; do
    ends_with "a loop of links: $words" 4 "$program" $words
  done
  rm $segment
  mkdir $segment
  for words in "${all[@]}"; do
    ends_with "a folder for a segment: $words" 4 "$program" $words
  done
  fresh
  echo mine >pg_wal
  : >in
  for words in "${all[@]}"; do
    ends_with "a file for the folder: $words" 4 "$program" $words
  done
}

a_folder_that_cannot_be_written_is_a_fault() {
  fresh
  mkdir pg_wal
  chmod 500 pg_wal
  commits 9 1 >in
  ends_with 'a folder that cannot be written: a run' 4 plainly "$program" run --list
  chmod 700 pg_wal
  printf 'C 1 0\nW\n' | run >out
  chmod 500 pg_wal
  ends_with 'a folder that cannot be written: a run that goes on' 4 \
    plainly "$program" run --append --list
  chmod 700 pg_wal
}

two_runs_in_one_folder() {
  local trial fresh_trial first second both=0 none=0 torn=0
  for ((trial = 0; trial < 100; trial++)); do
    fresh_trial=$base/trial
    mkdir "$fresh_trial" && cd "$fresh_trial" || exit 1
    commits 700 20 >first
    commits 900 20 >second
    run <first >out1 2>err1 &
    first=$!
    run <second >out2 2>err2 &
    second=$!
    wait $first
    first=$?
    wait $second
    second=$?
    case $first-$second in
      0-0) both=$((both + 1)) ;;
      0-4 | 0-9) [ "$(transactions)" = "$(seq -s ' ' 700 719)" ] || torn=$((torn + 1)) ;;
      4-0 | 9-0) [ "$(transactions)" = "$(seq -s ' ' 900 919)" ] || torn=$((torn + 1)) ;;
      *) none=$((none + 1)) ;;
    esac
    [ "$(ls pg_wal)" = 000000010000000000000001 ] || torn=$((torn + 1))
    cd "$base" && rm -rf "$fresh_trial"
  done
  equal 'two runs: never both with status 0' $both 0
  equal 'two runs: one of them with status 0, the other with 4 or 9' $none 0
  equal 'two runs: the log is that of the one' $torn 0
}

a_locked_folder_keeps_writers_out() {
  local words
  fresh
  commits 700 3 | run >out
  cp $segment kept
  for words in 'run' 'gen 10'; do
    commits 900 3 | flock pg_wal "$program" $words --seg $size >out 2>err
    equal "a locked folder: $words ends with a fault of the disk" $? 4
    equal "a locked folder: $words says so" "$(cat out err)" 'pgwal: disk fault'
  done
  cmp -s kept $segment
  equal 'a locked folder: the log stays as it is' $? 0
  equal 'a locked folder: a listing does not wait' \
    "$(flock pg_wal "$program" dump --seg $size | grep -c COMMIT)" 3
  fresh
  commits 700 3 | flock . "$program" run --seg $size >out
  equal 'a lock of the folder above keeps nobody out' $? 0
}

names_in_the_way() {
  local name
  for name in xlogtemp xlogtemp.1.0; do
    fresh
    mkdir pg_wal
    echo mine >target
    ln -s ../target pg_wal/$name
    commits 700 3 | timeout 60 "$program" run --seg $size >out
    equal "a link $name: the run goes on" $? 0
    equal "a link $name is not followed" "$(cat target)" mine
  done
  fresh
  mkdir pg_wal
  mkfifo pg_wal/xlogtemp
  commits 700 3 | timeout 60 "$program" run --seg $size >out
  equal 'a pipe: the run goes on' $? 0
  fresh
  echo file >pg_wal
  commits 700 3 | run >out 2>err
  equal 'a file in the place of the folder: a fault of the disk' $? 4
}

files_are_the_users_own() {
  local mask
  for mask in 000 022 077; do
    fresh
    (umask $mask; commits 700 3 | run >out)
    equal "umask $mask: the modes" "$(stat -c %a pg_wal $segment | xargs)" '700 600'
  done
}

failed_segment_leaves_nothing() {
  fresh
  # Files of at most half a segment: a write beyond fails.
  (trap '' XFSZ; ulimit -f $((size / 2048)); commits 700 3 | run >out 2>err)
  equal 'a segment without room: a fault of the disk' $? 4
  equal 'a segment without room: nothing is left' "$(ls pg_wal)" ''
}

many_segments_are_whole() {
  local i
  fresh
  for ((i = 0; i < 400; i++)); do echo 'I 7 10 00 8000*5a'; done | run >out
  equal 'four segments' "$(cat out)" 'records 400 commits 0 bytes 3212800 end 0/00412B30 segments 4'
  equal 'four segments: all are listed' "$(dump | grep -c 'len (rec/tot)')" 400
}

# A record that says that it has four gigabytes is told by the first page that it lacks.
the_largest_length_takes_no_memory() {
  fresh
  commits 700 1 | run >out
  printf '\xff\xff\xff\xff' | dd of=$segment bs=1 seek=40 conv=notrunc status=none
  (ulimit -v 8192; dump >out 2>err)
  equal 'a length of four gigabytes in 8 MiB: the log is damaged' $? 6
  equal 'a length of four gigabytes in 8 MiB: where' "$(cat err)" 'pgwal: damaged at 0/00102000: magic'
}

# The log goes over a pipe, cut at any byte and sent again, and the copy lists as it does.
a_copy_is_kept_over_a_pipe() {
  local cut
  fresh
  mkdir first second
  (cd first && commits 700 500 | run >/dev/null)
  for cut in 0 100 8224 8300 20000; do
    (cd first && send 2>/dev/null) | head -c $cut | (cd second && receive >../out)
    equal "a copy of $cut bytes: the status" $? 0
  done
  equal 'a copy cut in its third frame: a torn record was cleared, and comes again' "$(cat out)" \
    'received 0/00104000 taken 2 old 0 gap 0 bad 0'
  equal 'the whole log' "$( (cd first && send) | (cd second && receive) )" \
    'received 0/00104E78 taken 1 old 2 gap 0 bad 0'
  equal 'the copy lists as the log' "$(cd second && dump | cksum)" "$(cd first && dump | cksum)"
  equal 'it goes on as a log of its own' \
    "$(cd second && commits 900 1 | run --append | tail -n 1)" \
    'records 1 commits 1 bytes 40 end 0/00104EA0 segments 1'
}

a_log_is_sent_beside_its_writer() {
  fresh
  mkdir second
  commits 700 1 | run >/dev/null
  flock pg_wal "$program" send --seg $size >frames
  equal 'a log whose folder is locked is sent' $? 0
  equal 'a frame' "$(stat -c %s frames)" 8224
  (cd second && mkdir pg_wal && flock pg_wal "$program" receive --seg $size <../frames 2>err)
  equal 'no copy is kept in a folder that is locked' $? 4
}

# More frames than are taken at once; they are zeros, which are no frames.
too_many_frames_end_a_copy() {
  fresh
  head -c $((8224 * 1048576 + 1)) /dev/zero | receive >out 2>err
  equal 'too many frames: the status' "${PIPESTATUS[1]}" 11
  equal 'too many frames: what came of them' "$(cat out)" \
    'received 0/00100000 taken 0 old 0 gap 0 bad 1048576'
  equal 'too many frames: the line' "$(cat err)" 'pgwal: too many frames'
}

a_run_tells_its_commits
a_copy_is_kept_over_a_pipe
a_log_is_sent_beside_its_writer
too_many_frames_end_a_copy
a_replay_lists_what_its_crash_leaves
closed_streams_fail
full_output_fails
a_pipe_in_a_segments_place_is_a_fault
a_lost_segment_is_not_made_again
a_cut_segment_is_not_gone_on_with
a_segment_that_cannot_be_opened_is_a_fault
a_folder_that_cannot_be_written_is_a_fault
two_runs_in_one_folder
a_locked_folder_keeps_writers_out
names_in_the_way
files_are_the_users_own
failed_segment_leaves_nothing
many_segments_are_whole
the_largest_length_takes_no_memory
tell
