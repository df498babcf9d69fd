# Sourced by the scripts beside it: a temporary folder, which is removed at the end, and checks that are
# counted. `top` is the repository's folder, `base` the temporary one, `size` a segment's size in bytes.
set -u
top=$(cd "$(dirname "${BASH_SOURCE[0]}")/../.." && pwd) || exit 1
base=$(mktemp -d) || exit 1
trap 'rm -rf "$base"' EXIT
passed=0
failed=0
size=1048576

# equal NAME FOUND WANTED: a check, of which a line is printed if it fails
equal() {
  if [ "$2" = "$3" ]; then
    passed=$((passed + 1))
  else
    failed=$((failed + 1))
    printf '%s: found "%s", wanted "%s"\n' "$1" "$2" "$3"
  fi
}

# tell: how many checks passed and failed; the status is 1 if one failed
tell() {
  echo "$passed passed, $failed failed"
  [ $failed = 0 ]
}
