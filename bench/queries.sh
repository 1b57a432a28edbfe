#!/usr/bin/env bash
# Measures what queries cost over an archive, beside reading alone, in one run.
#
#   bench/queries.sh ARCHIVE [ROUNDS]
#
# Each figure is the median of the processor seconds of ROUNDS runs (3). A query's cost is its seconds less those of reading alone by the same
# program, as a multiple of those of reading alone by the program that BASE names (the same one, if BASE is not set). CQLPGN names the program,
# if it isn't the one that this repository builds. Where pgn-extract (a package of Debian) is installed, four searches of its own are measured too.
set -eu
archive=${1:?usage: bench/queries.sh ARCHIVE [ROUNDS]}
rounds=${2:-3}
top=$(cd "$(dirname "$0")/.." && pwd)
program=${CQLPGN:-$top/crates/cqlpgn/out/cqlpgn}
base=${BASE:-$program}
other=$(PATH=$PATH:/usr/games command -v pgn-extract) || other=
[ -x "$program" ] || { echo "$program is missing: make build builds it" >&2; exit 1; }
. "$top/bench/seconds.sh"

# no white pawn ever stands on a8, so every game is read and none is written
reading=$(seconds "$rounds" "$archive" "$program" eval 'cql() Pa8')
unit=$(seconds "$rounds" "$archive" "$base" eval 'cql() Pa8')
printf 'reading alone: %s s, by the program of BASE %s s\n\n%8s %8s  %s\n' "$reading" "$unit" seconds cost query

while read -r query; do
  taken=$(seconds "$rounds" "$archive" "$program" eval "$query")
  awk -v t="$taken" -v r="$reading" -v u="$unit" -v q="$query" 'BEGIN { printf "%8.3f %8.2f  %s\n", t, (t - r) / u, q }'
done <<'QUERIES'
cql() mate
cql() stalemate
cql() flipcolor { mate N attacks k not (anydirection 1 k & ~a) }
cql() flipcolor { mate [RQ]a-h8 attacks ka-h8 not ((southwest 1 k | down 1 k | southeast 1 k) & ~p) }
cql() flipcolor move promote [RBN]
cql() flipcolor move from Pa-h5 to a-h6 capture pa-h5
cql() flipcolor { btm #(A attacks k) >= 2 }
cql() flipcolor { btm check N attacks q }
cql() flipcolor line --> { btm check } --> wtm --> { btm check } --> wtm --> { btm check }
cql() (line --> check+) >= 2
cql() initial find move from Ke1 to g1 find move from ke8 to c8
cql() flipcolor line --> {move from Pa-h2} --> wtm --> ({btm move from P} --> wtm){2,5} --> {move promote A}
cql() #[Qq] >= 3
cql() power A - power a > 5
cql() move capture [Qq]
cql() square x in [RQ] {x attacks k}
cql() flipcolor line --> ({btm B attacks k move from R} --> wtm --> {btm R attacks k} --> wtm){2,10}
cql() initial find {check R attacks k}
cql() find {check R attacks k}
cql() initial #(A | a) <= 4
cql() Pe4
cql() { #R == 1 #r == 1 #[QBNqbn] == 0 }
cql() flipcolor square y in [QRB] square x in [qr] { move to y k & between(y x) not between(y k) & ~_ y attacks k }
cql() square x in N square y in [rqk] square z in [rqk] { x attacks y x attacks z not (y & z) }
cql() child { move from A square y in A { move to y } }
cql() square x in A square y in a { move from x to y }
cql() shift flip { Pa2 Pb3 Pc2 }
cql() flip shift { Kg1 Pf2 Pg2 Ph2 }
cql() shift flip { mate Pa2 Pb3 Pc2 }
cql() square x in . square y in . { move from x to y parent find <-- move from y to x }
cql() square x in . square y in . { move from x to y child child move from y to x }
cql() flipcolor square x in ~_ & . square y in _ { move to x parent { a & x } N & x attacks k }
cql() flipcolor square x in [BRQ] square y in [qrbnp] { x attacks y between(y k) & _ }
cql() flipcolor { square x in [RBQ] square y in [qrbn] { x attacks y #(between(x k) & a) == 1 y & between(x k) } }
cql() flipcolor square x in [RBQ] square y in [RBQ] { x attacks y y attacks k & between(x k) }
cql() flipcolor square x in [QRBN] { move to x parent parent move from x square y in _ attackedby x { move from y parent parent move to y } }
cql() flipcolor square x in A { btm move to x x attackedby r x attackedby b }
cql() flipcolor square x in [QRBN] { square y in _ attackedby x { parent parent move to y move from y } parent parent move from x move to x }
cql() flipcolor square x in [QRBN] { parent parent move from x square y in _ attackedby x { parent parent move to y move from y } move to x }
cql() flipcolor square x in A { x attackedby r x attackedby b btm move to x }
cql() flipcolor square x in A { x attackedby b move to x x attackedby r btm }
cql() square y in A { move to y square x in . { move from x child child square z in A { not x & z move from y to z child child move from z to x } } }
cql() square y in A { square x in . { child child square z in A { child child move from z to x move from y to z not x & z } move from x } move to y }
cql() square y in A { square x in . { child child square z in A { move from y to z not x & z child child move from z to x } move from x } move to y }
cql() square x in . square y in . { parent find <-- move from y to x move from x to y }
cql() square y in . square x in . { parent find <-- move from y to x move from x to y }
QUERIES

[ -n "$other" ] || exit 0
lists=$(mktemp -d)
trap 'rm -rf "$lists"' EXIT
echo 'FENPattern "*/*/*/*/4P3/*/*/*"' > "$lists/pattern"
echo '1 RP* RP*' > "$lists/material"
printf '\n%8s  %s\n' seconds 'pgn-extract'
while read -r flags; do
  # shellcheck disable=SC2086 # the flags are words
  printf '%8.3f  %s\n' "$(seconds "$rounds" "$archive" "$other" -s $flags)" "$flags"
done <<FLAGS
-M
--stalemate
-t$lists/pattern
-y$lists/material
FLAGS
