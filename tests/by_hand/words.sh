#!/usr/bin/env bash
# Tries the words that pgmap and cluster_dump refuse, and those that cluster_dump takes for places:
# `rt ci` runs each of them once, with words that are right.
#
#     tests/by_hand/words.sh              tries crates/pgmap/out/pgmap and crates/cluster_dump/out/cluster_dump
#
# Prints a line for each check that failed, and at the end 'N passed, M failed'; its status is 1
# where one failed.
source "$(dirname "${BASH_SOURCE[0]}")/checks.sh" || exit 1
map=$(realpath -e "$top/crates/pgmap/out/pgmap") || exit 1
lister=$(realpath -e "$top/crates/cluster_dump/out/cluster_dump") || exit 1
folder=$top/crates/cluster_dump/data

# refuses LINE WORD..: pgmap ends with status 3 at this line, and says why in these words
refuses() {
  local line=$1 said
  said=$(cd "$base" && rm -rf pg_map && printf '%s\n' "$line" | "$map" 2>&1 >/dev/null)
  equal "pgmap, $line" "$?: $said" "3: pgmap: line 1: ${*:2}"
}

# places OPTION WORD WANTED: which records cluster_dump lists by this word, by their addresses, and its status
places() {
  local listed status
  listed=$("$lister" -p "$folder" "$1" "$2" 2>/dev/null)
  status=$?
  equal "cluster_dump $1 '$2'" "$(sed -n 's/.* lsn: 0\/00\([0-9A-F]*\),.*/\1/p' <<<"$listed" | xargs) $status" "$3"
}

no_command='no command: set KEY VALUE, get KEY, del KEY'
escape='a backslash is followed by none of ", \ and x with two hexadecimal digits'
refuses 'put a' "$no_command"
refuses 'set a' "$no_command"
refuses 'get a b' "$no_command"
refuses 'get a"b"' 'a byte that is not plain stands outside of quotes'
refuses $'get \ta' 'a byte that is not plain stands outside of quotes'
refuses 'get "a"b' 'a quoted word is not followed by a blank'
refuses 'get "a' 'no closing quote'
refuses 'get "\y"' "$escape"
refuses 'get "\x0g"' "$escape"
behind='502018 502048 5020F0 502118 5021A0'
places -s 0/500060 "500060 500098 5000C0 500150 $behind 0"
places -s 0/00500098 "500098 5000C0 500150 $behind 0"
places -s 0/5000c0 "5000C0 500150 $behind 0"
places -s 000000020000000000000005 "500028 500060 500098 5000C0 500150 $behind 0"
places -e 0/500098 '500028 500060 0'
places -e 000000020000000000000005 "500028 500060 500098 5000C0 500150 $behind 0"
places -e 000000020000000000000004 ' 0'
for word in '' 500028 0/ /0 0/100000000 '0/500028 ' 00000002000000000000000f 00000002000000000000005; do
  places -s "$word" ' 2'
done
tell
