#!/usr/bin/env bash
# Measures several queries over one reading of an archive beside each of them alone, in one run.
#
#   bench/many.sh ARCHIVE [ROUNDS [BYTES]]
#
# The queries are the first sixteen of README's cookbook by the names of their cases; of the archive the first BYTES are taken, 10,000,000 where
# nothing else is said. Each figure is the median of the seconds by the clock of ROUNDS runs (3), so nothing else should run. `many` by one worker
# should take at most 1.5 times the seconds of the dearest query and a third of those of all others; by four it should be 2.8 times as
# fast. CQLPGN names the program, if it isn't the one that this repository builds. What `many` writes is compared with the runs, byte for byte.
set -eu
archive=${1:?usage: bench/many.sh ARCHIVE [ROUNDS [BYTES]]}
rounds=${2:-3}
top=$(cd "$(dirname "$0")/.." && pwd)
program=${CQLPGN:-$top/crates/cqlpgn/out/cqlpgn}
[ -x "$program" ] || { echo "$program is missing: make build builds it" >&2; exit 1; }
room=$(mktemp -d)
trap 'rm -rf "$room"' EXIT
head -c "${3:-10000000}" "$archive" > "$room/archive.pgn"

# the median of the seconds by the clock of a command, whose games are kept and whose status is not asked
elapsed() {
  local TIMEFORMAT=%R
  for _ in $(seq "$rounds"); do
    { time "$@" > "$room/out" 2> /dev/null || true; } 2>&1
  done | sort -n | sed -n "$(((rounds + 1) / 2))p"
}

printf '%8s  %s\n' seconds 'query alone, one worker'
number=0
for folder in "$top"/cases/cookbook-*; do
  [ "$number" -lt 16 ] || break
  number=$((number + 1))
  [ "$number" = 1 ] || echo %% >> "$room/queries.cql"
  cat "$folder/query.cql" >> "$room/queries.cql"
  taken=$(elapsed "$program" run "$folder/query.cql" "$room/archive.pgn" --workers 1)
  { printf 'query %d bytes %d\n' "$number" "$(stat -c %s "$room/out")"; cat "$room/out"; } >> "$room/alone"
  printf '%8.3f  %s\n' "$taken" "$(tr '\n' ' ' < "$folder/query.cql")" | tee -a "$room/figures"
done

one=$(elapsed "$program" many "$room/queries.cql" "$room/archive.pgn" --workers 1)
cmp "$room/alone" "$room/out"
four=$(elapsed "$program" many "$room/queries.cql" "$room/archive.pgn" --workers 4)
cmp "$room/alone" "$room/out"
awk -v one="$one" -v four="$four" '
  { sum += $1; if ($1 > most) most = $1 }
  END {
    bound = 1.5 * most + (sum - most) / 3
    printf "\n%8.3f  all of them, one after the other\n", sum
    printf "%8.3f  many, one worker: %.2f times as fast as these; wanted at most %.3f\n", one, sum / one, bound
    printf "%8.3f  many, four workers: %.2f times as fast as one; wanted at least 2.80\n", four, one / four
  }' "$room/figures"
