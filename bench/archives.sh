#!/usr/bin/env bash
# Measures cqlpgn beside pgn-extract over an archive, in one run: reading alone, and reading and writing every game.
#
#   bench/archives.sh ARCHIVE [ROUNDS]
#
# Each figure is the median of ROUNDS runs (3), in megabytes of the archive a second of processor time; the ratio is cqlpgn's to pgn-extract's.
# pgn-extract is a package of Debian. CQLPGN names the program, if it isn't the one that this repository builds.
set -eu
archive=${1:?usage: bench/archives.sh ARCHIVE [ROUNDS]}
rounds=${2:-3}
top=$(cd "$(dirname "$0")/.." && pwd)
program=${CQLPGN:-$top/crates/cqlpgn/out/cqlpgn}
other=$(PATH=$PATH:/usr/games command -v pgn-extract) || { echo "pgn-extract is missing: apt-get install pgn-extract" >&2; exit 1; }
[ -x "$program" ] || { echo "$program is missing: make build builds it" >&2; exit 1; }
bytes=$(stat -c %s "$archive")

. "$top/bench/seconds.sh"

# a line of the table: what is measured, and the seconds of both
line() {
  awk -v what="$1" -v ours="$2" -v theirs="$3" -v bytes="$bytes" 'BEGIN {
    mb = bytes / 1000000
    printf "%-24s %8.1f %12.1f %8.2f\n", what, mb / ours, mb / theirs, theirs / ours
  }'
}

printf '%-24s %8s %12s %8s\n' "MB/s, median of $rounds" cqlpgn pgn-extract ratio
# no white pawn ever stands on a8, so nothing is written
line "reading alone" "$(seconds "$rounds" "$archive" "$program" eval 'cql() Pa8')" "$(seconds "$rounds" "$archive" "$other" -s -r)"
# the white king stands on e1 as every game from the initial position begins
line "reading and writing" "$(seconds "$rounds" "$archive" "$program" eval 'cql() Ke1')" "$(seconds "$rounds" "$archive" "$other" -s)"
