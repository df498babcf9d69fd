#!/usr/bin/env bash
# Makes the log of a PostgreSQL cluster with compressed page images and, behind a recovery, a second timeline, and compares
# what `cluster_dump` and pg_waldump list of either timeline, line by line but for descriptions: managers, lengths,
# transactions, addresses, words of records and block references.
#
#     tests/by_hand/cluster_with_postgres.sh [PROGRAM]                    with PostgreSQL 16
#     tests/by_hand/cluster_with_postgres.sh --other-version [PROGRAM]    with another one (postgres.sh)
#
# It tries crates/cluster_dump/out/cluster_dump, or another build, and is run by hand, outside `rt ci`. Folders are
# temporary ones. Prints 'N passed, M failed'; its status is 1 where one failed.
source "$(dirname "${BASH_SOURCE[0]}")/checks.sh" || exit 1
source "$(dirname "${BASH_SOURCE[0]}")/postgres.sh" || exit 1
program=$(realpath -e "${1:-$top/crates/cluster_dump/out/cluster_dump}") || exit 1

# work TABLE: changes of many pages behind a checkpoint, so that each has its image in the log
work() {
  sql "create table $1 (a int primary key, b text)"
  sql "insert into $1 select g, repeat('x', g % 700) from generate_series(1, 2000) g"
  sql "checkpoint"
  sql "update $1 set a = a + 10000 where a % 7 = 0"
  sql "begin; delete from $1 where a < 500; rollback"
  sql "vacuum $1"
}

# promoted: the server recovers from its own log, and goes on with the next timeline
promoted() {
  server stop -m fast || failed
  as_server touch "$base/data/recovery.signal"
  server start -l "$base/server" || failed
  local tries
  for ((tries = 0; tries < 600; tries++)); do
    sql "select pg_is_in_recovery()"
    [ "$(cat "$base/said")" != f ] || return 0
    sleep 0.1
  done
  failed
}

# compared: of the lines of a listing what both programs tell
compared() { sed -E -e 's/(, desc: [A-Z0-9_+]+|, desc: UNKNOWN \([0-9a-f]+\))( .*)?(, blkref #0.*)$/\1\3/' -e t -e 's/(, desc: [A-Z0-9_+]+|, desc: UNKNOWN \([0-9a-f]+\))( .*)?$/\1/'; }

# timeline NUMBER: both programs list the same of it
timeline() {
  local name first start
  name=$(printf %08X "$1")
  first=$(basename "$(ls "$base/copy/pg_wal/$name"* | head -n 1)")
  start=0/$(printf %X $((16#${first:16} * size)))
  "$programs/pg_waldump" -p "$base/data/pg_wal" -t "$1" -s "$start" 2>"$base/said" | compared >"$base/theirs"
  "$program" -p "$base/copy/pg_wal" -t "$1" >"$base/listing" 2>"$base/ended"
  equal "timeline $1 is listed" "$?" 0
  compared <"$base/listing" >"$base/ours"
  equal "timeline $1: some lines" "$(($(wc -l <"$base/ours") > 100))" 1
  cmp "$base/ours" "$base/theirs"
  equal "timeline $1: the same lines" $? 0
}

cluster pglz
work t
promoted
work u
server stop -m fast || failed
copied
# An image that pg_waldump knows to be compressed
compressed=$("$programs/pg_waldump" -b -p "$base/data/pg_wal" -t 2 -s 0/1000000 2>"$base/said" | grep -c 'method: pglz')
equal 'images are compressed' "$((compressed > 0))" 1
timeline 1
timeline 2
tell
