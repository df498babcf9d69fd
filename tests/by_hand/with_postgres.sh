#!/usr/bin/env bash
# Makes a small PostgreSQL cluster's log, and compares what `pgwal dump` and pg_waldump list of it: managers, lengths,
# transactions, addresses and block references, line by line. The log has inserts, an update of an index, a checkpoint,
# segment switches and logical messages. Then a copy of it is sent, received twice, gone on with, and received again:
# what lies below its end stays as the server wrote it.
#
#     tests/by_hand/with_postgres.sh [PROGRAM]                    with PostgreSQL 16
#     tests/by_hand/with_postgres.sh --other-version [PROGRAM]    with another one: a copy is listed,
#                                                                 whose pages have version 16's magic number
#
# It tries what the launcher ./pgwal starts, or another build, and is run by hand, outside `rt ci` (postgres.sh says which
# server it takes). Folders are temporary ones. Prints 'N passed, M failed'; its status is 1 where one failed.
source "$(dirname "${BASH_SOURCE[0]}")/checks.sh" || exit 1
source "$(dirname "${BASH_SOURCE[0]}")/postgres.sh" || exit 1
program=$(realpath -e "${1:-$top/pgwal}") || exit 1

# work: what the log is to have
work() {
  local round
  sql "create table t (a int primary key, b text)"
  sql "insert into t select g, repeat('x', g % 700) from generate_series(1, 2000) g"
  sql "select pg_switch_wal()"
  sql "update t set a = a + 10000 where a % 7 = 0"
  sql "checkpoint"
  sql "select pg_switch_wal()"
  sql "select pg_switch_wal()"
  for round in 1 2 3; do
    sql "select pg_logical_emit_message($((round % 2 == 0)) = 1, 'p', repeat('z', $round * 3000))"
    sql "select pg_switch_wal()"
  done
  sql "delete from t where a < 500"
}

# compared: of the lines of a listing what both programs tell
compared() { sed -E -e 's/, desc: .*(, blkref #0.*)$/\1/' -e t -e 's/, desc: .*//'; }

cluster off
work
server stop -m fast || failed
copied
first=$(ls "$base/copy/pg_wal" | head -n 1)
start=0/$(printf %X $((16#${first:16} * size)))
"$programs/pg_waldump" -p "$base/data/pg_wal" -s "$start" 2>"$base/said" | compared >"$base/theirs"
(cd "$base/copy" && "$program" dump --seg $size -s "$start") >"$base/listing"
equal 'the listing ends cleanly' $? 0
compared <"$base/listing" >"$base/ours"
equal 'as many lines' "$(wc -l <"$base/ours")" "$(wc -l <"$base/theirs")"
cmp "$base/ours" "$base/theirs"
equal 'the same lines' $? 0
# (a server's own record between two switches in a row makes the second one count)
equal 'five segment switches or more' "$(($(grep -c 'desc: SWITCH' "$base/listing") >= 5))" 1

# at FOLDER WORD..: a command of the program in a folder of the temporary one
at() { (cd "$base/$1" && "$program" "${@:2}" --seg $size); }

# same_below END ONE OTHER: two folders' logs have the same bytes below an address
same_below() { cmp -n $(($1 - size)) <(cat "$base/$2"/pg_wal/0000*) <(cat "$base/$3"/pg_wal/0000*); }

# (what is gone on with begins with segment 1, as a new cluster's log does)
equal 'the log begins with segment 1' "$start" 0/1000000
cp -a "$base/copy" "$base/kept"
mkdir "$base/standby"
at copy send >"$base/frames"
equal 'the log is sent' $? 0
at standby receive <"$base/frames" >"$base/received"
equal 'it is received' $? 0
at copy send | at standby receive >"$base/again"
equal 'and again' "${PIPESTATUS[*]}" '0 0'
equal 'with nothing taken' "$(sed -E 's/.* taken ([0-9]+) .*/\1/' "$base/again")" 0
end=$((16#$(sed -E 's,received 0/([0-9A-F]+) .*,\1,' "$base/again")))
printf 'C 900 0\nC 901 0\n' | at copy run --append --list >"$base/told"
equal 'it is gone on with' $? 0
equal 'two commits are told' "$(grep -c ' hard ' "$base/told")" 2
same_below "$end" copy kept
equal 'below its end it is as it was' $? 0
at copy send | at standby receive >"$base/more"
equal 'the new records are received' "${PIPESTATUS[*]}" '0 0'
at copy dump >"$base/listing"
at standby dump >"$base/their_copy"
cmp "$base/listing" "$base/their_copy"
equal 'both list the same' $? 0
equal 'with both commits last' "$(tail -n 2 "$base/listing" | grep -c 'tx: *90[01],')" 2
tell
