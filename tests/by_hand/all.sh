#!/usr/bin/env bash
# Runs each script beside it, one behind another, and says at the end which passed, which failed and which were
# skipped. The gate (`rt ci`) runs none of them.
#
#     tests/by_hand/all.sh                       tries the program that the launcher ./pgwal built
#     tests/by_hand/all.sh PROGRAM               tries another build
#     tests/by_hand/all.sh --proofs [PROGRAM]    and the two that prove copies of the repository, an hour and more
#
# A script is skipped if something that it needs is not there. The status is 1 if one failed.
set -u
here=$(cd "$(dirname "${BASH_SOURCE[0]}")" && pwd) || exit 1
proofs=
if [ "${1:-}" = --proofs ]; then
  proofs=yes
  shift
fi
program=${1:-$here/../../crates/pgwal/out/pgwal}
program=$(realpath -e "$program") || { echo "there is no program: call ./pgwal once, which builds it" >&2; exit 1; }
passed=0
failed=0
skipped=0
summary=

# note WORD NAME: a line of the summary
note() { summary+=$(printf '%-8s %s' "$1" "$2")$'\n'; }

skip() {
  skipped=$((skipped + 1))
  note skipped "$1: $2"
}

# lacks COMMAND..: the first of these that is not there
lacks() {
  local it
  for it in "$@"; do
    command -v "$it" >/dev/null || { echo "$it"; return 0; }
  done
  return 1
}

# try 'COMMAND..' SCRIPT WORD..: a script that needs these commands, called by these words
try() {
  local needed
  if needed=$(lacks $1); then
    skip "${*:2}" "there is no $needed"
    return
  fi
  shift
  echo "== $*"
  if "$here/$1" "${@:2}" </dev/null; then
    passed=$((passed + 1))
    note passed "$*"
  else
    failed=$((failed + 1))
    note failed "$*"
  fi
}

# try_postgres: with the version that is there; the server runs as the user postgres if this one is root
try_postgres() {
  local programs words=("$program")
  if ! programs=$(pg_config --bindir 2>/dev/null) || [ ! -x "$programs/initdb" ]; then
    skip "with_postgres.sh, cluster_with_postgres.sh" "there is no PostgreSQL server"
    return
  elif [ "$(id -u)" = 0 ] && ! id postgres >/dev/null 2>&1; then
    skip "with_postgres.sh, cluster_with_postgres.sh" "there is no user postgres"
    return
  fi
  [[ $("$programs/postgres" --version) == *' 16.'* ]] || words=(--other-version "$program")
  try 'setpriv python3' with_postgres.sh "${words[@]}"
  unset 'words[-1]'
  try 'setpriv python3' cluster_with_postgres.sh "${words[@]}"
}

# prove SCRIPT: one that proves a copy of the repository
prove() {
  if [ -n "$proofs" ]; then
    try 'rt git python3' "$1"
  else
    skip "$1" "asked for by --proofs"
  fi
}

try 'flock prlimit setpriv mkfifo' program.sh "$program"
try awk replay_memory.sh "$program"
try cc refused_memory.sh "$program"
try python3 kill.py --program "$program" 1000
try python3 kill.py --append --program "$program" 1000
try python3 two_writers.py --program "$program" 200
try python3 moments_of_one.py --program "$program" 200
try python3 switches.py --program "$program" 100
map=$here/../../crates/pgmap/out/pgmap
if [ -x "$map" ]; then
  try python3 kill_pgmap.py --program "$map" 60
else
  skip kill_pgmap.py "pgmap is not built: call rt run in crates/pgmap"
fi
if [ -x "$map" ] && [ -x "$here/../../crates/cluster_dump/out/cluster_dump" ]; then
  try realpath words.sh
else
  skip words.sh "pgmap or cluster_dump is not built: call rt run in their crates"
fi
if [ -r "$here/../../crates/pgwal_c/out/libpgwal_c.a" ]; then
  try rt embedding.sh 1000 20 "$program"
else
  skip embedding.sh "there is no library: call rt lib in crates/pgwal_c"
fi
try_postgres
prove wrong_definitions.py
prove wrong_statuses.py
printf '\n%s%s passed, %s failed, %s skipped\n' "$summary" "$passed" "$failed" "$skipped"
[ "$failed" = 0 ]
