# Sourced behind checks.sh by the scripts that make a PostgreSQL cluster's log: a server of its own, and a copy of what
# it wrote. They are called with PostgreSQL 16, or with --other-version first and another one: of that the copy's pages
# have version 16's magic number. The programs of PostgreSQL are those beside the `pg_config` that is found; as root they
# run as the user postgres.
programs=$(pg_config --bindir) || exit 1
version=$("$programs/postgres" --version)
if [ "${1:-}" = --other-version ]; then
  shift
elif [[ $version != *' 16.'* ]]; then
  echo "this is $version, and not of version 16: see --other-version" && exit 1
fi
size=$((16 << 20))

# as_server WORD..: runs a command as a user that a server may have
as_server() {
  if [ "$(id -u)" = 0 ]; then
    (cd / && setpriv --reuid=postgres --regid=postgres --init-groups "$@")
  else
    "$@"
  fi
}

server() { as_server "$programs/pg_ctl" -D "$base/data" -w "$@" >"$base/said" 2>&1; }

# failed: ends with what the server said last
failed() {
  cat "$base/said" "$base/server" >&2
  exit 1
}

sql() { as_server "$programs/psql" -h "$base" -d postgres -qAtc "$1" >"$base/said" || exit 1; }

# cluster COMPRESSION: a server that keeps its whole log. Its segments have 16 MiB: of smaller ones initdb fills several,
# and keeps the last ones alone
cluster() {
  [ "$(id -u)" != 0 ] || chown postgres "$base"
  as_server "$programs/initdb" -D "$base/data" --wal-segsize=16 -A trust -U postgres -N >"$base/said" || exit 1
  as_server tee -a "$base/data/postgresql.conf" >"$base/said" <<CONF
listen_addresses = ''
unix_socket_directories = '$base'
autovacuum = off
wal_level = logical
wal_compression = $1
wal_recycle = off
wal_keep_size = '1GB'
max_wal_size = '1GB'
restore_command = 'false'
CONF
  export PGUSER=postgres
  trap 'server stop -m immediate; rm -rf "$base"' EXIT
  server start -l "$base/server" || failed
}

# copied: the log's segments in a folder of their own, with version 16's magic number
copied() {
  mkdir -p "$base/copy/pg_wal"
  cp "$base"/data/pg_wal/0000???????????????????? "$base/copy/pg_wal"
  python3 - "$base"/copy/pg_wal/* <<'PYTHON'
import sys
for path in sys.argv[1:]:
    text = bytearray(open(path, "rb").read())
    for page in range(0, len(text), 8192):
        if text[page + 1] == 0xD1:
            text[page] = 0x13
    open(path, "wb").write(text)
PYTHON
}
