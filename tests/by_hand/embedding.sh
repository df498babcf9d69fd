#!/usr/bin/env bash
# Links the log into a program in C and one in Rust, which `rt ci` cannot: eight threads commit records side by
# side, and each record stands in the log where its thread was told; so `pgwal dump` lists them, and so a program of
# the same language reads them back; a record with blocks, which was committed ahead of the disk and flushed behind,
# reads back as it was written. Then each program goes on with that log; and it is killed at random moments, again
# and again, up to twenty times over one log, of which no record that was told in any of its lives is missing; behind a
# last record that is torn the log goes on. On a disk that fails all threads are told so; and under valgrind four
# threads in C show no leak and no race (embedding.supp has what it says of the library).
#
#     tests/by_hand/embedding.sh                              100,000 records a thread, 20 kills of each program
#     tests/by_hand/embedding.sh RECORDS KILLS [PROGRAM]      and lists by another build
#
# It is run by hand, outside `rt ci`, behind `rt lib` in crates/pgwal_c. What the programs stand on in the kit is
# found by `rt doc`, or by PGWAL_KIT. A program is skipped with a word if its compiler is not there. All is done in a
# temporary folder, which is removed. Prints a line for each check that failed, and at the end 'N passed, M failed';
# its status is 1 where one failed.
source "$(dirname "${BASH_SOURCE[0]}")/checks.sh" || exit 1
records=${1:-100000}
kills=${2:-20}
program=$(realpath -e "${3:-$top/crates/pgwal/out/pgwal}") || exit 1
PGWAL_KIT=${PGWAL_KIT:-$(dirname "$(rt doc)")} || exit 1
PGWAL_LIB=${PGWAL_LIB:-$top/crates/pgwal_c/out}
export PGWAL_KIT PGWAL_LIB
[ -r "$PGWAL_LIB/libpgwal_c.a" ] || { echo "there is no library: call rt lib in crates/pgwal_c" >&2; exit 1; }
cd "$base" || exit 1

# listed: each record of the log, as the programs tell their places
listed() {
  "$program" dump --seg 16777216 | sed -n 's/.* tx: *\([0-9]*\), lsn: *\([0-9A-F/]*\),.*/\2 \1/p' | sort
}

# torn NAME COMMAND: a byte of the last record is another one, as where a crash tore it: the log ends before it, and
# is gone on with
torn() {
  local last
  last=$((16#$("$program" dump --seg 16777216 | sed -n 's/.*lsn: *0\/\([0-9A-F]*\),.*/\1/p' | tail -1)))
  printf X | dd "of=pg_wal/$(printf '%08X%08X%08X' 1 0 $((last >> 24)))" bs=1 "seek=$(((last & 0xFFFFFF) + 30))" \
    conv=notrunc status=none
  listed >before 2>err
  "$2" pg_wal 1 places >more 2>err
  equal "$1: the status over a last record that is torn" $? 0
  sort before more >sorted
  listed | cmp -s - sorted
  equal "$1: the log goes on behind those before it" $? 0
}

# commits NAME COMMAND READ: what all threads were told is what the log lists, and what is read back
commits() {
  rm -rf pg_wal
  "$2" pg_wal "$records" places >told 2>err
  equal "$1: the status" $? 0
  sort told >sorted
  equal "$1: records told" "$(wc -l <sorted)" $((8 * records))
  listed | cmp -s - sorted
  equal "$1: they are what is listed" $? 0
  "$3" pg_wal 2>err | sort | cmp -s - sorted
  equal "$1: they are what is read back" $? 0
  "$2" pg_wal 1 places >more 2>err
  equal "$1: the status over a log that is there" $? 0
  sort told more >sorted
  listed | cmp -s - sorted
  equal "$1: it is gone on with" $? 0
  torn "$1" "$2"
  equal "$1: a folder that is locked" "$(flock pg_wal "$2" pg_wal 1 2>&1 | grep -ciE 'another program|WouldBlock')" 1
  touch pg_wal/000000010000000000000050
  equal "$1: a later segment" "$("$2" pg_wal 1 2>&1 | grep -ciE 'segments that are not|Others')" 1
  rm pg_wal/000000010000000000000050
  printf X | dd of=pg_wal/000000010000000000000001 conv=notrunc status=none
  equal "$1: a damaged log" "$("$2" pg_wal 1 2>&1 | grep -ci 'damaged.*magic')" 1
}

# killed NAME COMMAND READ: of a program that was killed, and went on with its log and was killed again, each record
# that was told in any of its lives is listed, and read back
killed() {
  local number
  for ((number = 0; number < kills; number++)); do
    # Twenty lives a log.
    ((number % 20)) || { rm -rf pg_wal && : >lives; }
    "$2" pg_wal 1000000 places >told 2>err &
    sleep "0.$((RANDOM % 10))$((RANDOM % 10))"
    kill -KILL $! && wait $! 2>/dev/null
    equal "$1, kill $number: a log that was not opened" "$(grep -ciE 'DOWN|DAMAGED|BEYOND|OTHERS|Error' err)" 0
    # A line that was cut is not told.
    sed '$d' told >>lives
    sort lives >sorted
    listed >all
    equal "$1, kill $number: records told and not listed" "$(comm -23 sorted all | wc -l)" 0
    "$3" pg_wal 2>err | sort >all
    equal "$1, kill $number: records told and not read back" "$(comm -23 sorted all | wc -l)" 0
  done
  equal "$1: records told in several lives" "$(($(wc -l <lives) > 0))" 1
}

# fails NAME COMMAND WORDS COUNT: on a disk that fails while eight threads commit so many lines say so, and it ends
fails() {
  rm -rf pg_wal
  (trap '' XFSZ; ulimit -f 500; timeout 100 "$2" pg_wal 1000 >told 2>err)
  equal "$1: the status on a disk that fails" $? 1
  equal "$1: lines that tell a disk that fails" "$(grep -c "$3" err)" "$4"
}

# watched TOOL WORK COUNT OPTIONS..: four threads under a tool of valgrind, which has nothing to say
watched() {
  rm -rf pg_wal
  valgrind -q "--tool=$1" --error-exitcode=9 "${@:4}" ./watched 4 "$3" "$2" 100 >told 2>err
  equal "in C: $2 under $1" "$?, $(grep -c . err)" '0, 0'
}

tried() {
  commits "$1" "$2" "$3"
  killed "$1" "$2" "$3"
}

# blocks NAME WANTED COMMAND..: records with blocks read back, and are listed with the image's block
blocks() {
  rm -rf pg_wal
  equal "$1: records with blocks" "$(timeout 100 "${@:3}" pg_wal 2>&1 | tr '\n' ';')" "$2"
  equal "$1: the image is listed" "$("$program" dump --seg 16777216 | grep -c '#32: .*blk 4294967294 FPW')" 1
}

if command -v cc >/dev/null; then
  cc -std=c11 -O2 -Wall -o in_c "$top/bindings/c/commits.c" -L"$PGWAL_LIB" -lpgwal_c \
    -L"$PGWAL_KIT/c" -los_c -llibc_c -pthread || exit 1
  cc -std=c11 -O2 -Wall -I"$top/bindings/c" -o reads "$top/tests/by_hand/embedding_reads.c" -L"$PGWAL_LIB" -lpgwal_c \
    -L"$PGWAL_KIT/c" -los_c -llibc_c -pthread || exit 1
  tried 'in C' ./in_c ./reads
  cc -std=c11 -O2 -Wall -I"$top/bindings/c" -o ends "$top/tests/by_hand/embedding_ends.c" -L"$PGWAL_LIB" -lpgwal_c \
    -L"$PGWAL_KIT/c" -los_c -llibc_c -pthread || exit 1
  # 0 is DONE, 4 DOWN, 8 LONG
  equal 'in C: appends of each length, and segments, end' "$(timeout 100 ./ends | sed 's/.*: //' | tr '\n' ';')" \
    '60, 0, 0;0, 8, 0;60, 0, 0;60, 0, 0;0, 8, 0;60, 0, 0;0, 8, 0;60, 0, 0;1, 200000, 200000, 200028, 0;'
  cc -std=c11 -O2 -Wall -I"$top/bindings/c" -o blocks "$top/tests/by_hand/embedding_blocks.c" -L"$PGWAL_LIB" -lpgwal_c \
    -L"$PGWAL_KIT/c" -los_c -llibc_c -pthread || exit 1
  # 18 is BLOCK, 15 END
  blocks 'in C' 'refused: 18 18 18;answered: 0 0 0 0, 1;closed: 0;read: 0 1;then: 0 1;then: 15;' ./blocks
  # No file may have a segment's length: the first call of the disk fails.
  equal 'in C: appends on a disk that fails end' \
    "$(trap '' XFSZ; ulimit -f 500; timeout 100 ./ends down | sed 's/.*: [0-9]*, //')" '4, 4'
  fails 'in C' ./in_c 'PGWAL_DOWN.* at' 8
  if command -v valgrind >/dev/null; then
    cc -std=c11 -g -O1 -fno-inline -Wall -I"$top/bindings/c" -o watched "$top/bench/embedded.c" -L"$PGWAL_LIB" \
      -lpgwal_c -L"$PGWAL_KIT/c" -los_c -llibc_c -pthread || exit 1
    known="--suppressions=$top/tests/by_hand/embedding.supp"
    watched memcheck commits 300 --leak-check=full --show-leak-kinds=all --errors-for-leak-kinds=all "$known"
    watched helgrind commits 300
    watched helgrind appends 6000 "$known"
  else
    echo 'in C under valgrind: skipped, there is no valgrind'
  fi
else
  echo 'in C: skipped, there is no cc'
fi
if command -v cargo >/dev/null; then
  cp -r "$top/bindings/rust" rust
  cargo build --quiet --offline --release --examples --manifest-path rust/Cargo.toml || exit 1
  blocks 'in Rust' 'refused: Some(Block { index: 1 });read back: true;' rust/target/release/examples/blocks
  tried 'in Rust' rust/target/release/examples/commits rust/target/release/examples/reads
  fails 'in Rust' rust/target/release/examples/commits 'Error: Down' 1
else
  echo 'in Rust: skipped, there is no cargo'
fi
tell
