#!/bin/sh
# Measures by processor time: lists of legal moves, texts in Standard Algebraic Notation read and written, and nodes of perft a second, beside
# stockfish's perft in the same run where it is installed; and, with ARCHIVE, how fast an archive is cut and each position of its games read.
# Each line of positions.txt is a position and the texts of its legal moves. The program is the crate cq_speed, which the gate proves and
# builds; SPEED names another build of it.
# Usage: bench/moves.sh [ROUNDS [ARCHIVE]]     (rounds over the positions, 100000 if left out)
set -eu

here=$(cd "$(dirname "$0")" && pwd)
rounds=${1:-100000}
program=${SPEED:-$here/../crates/cq_speed/out/cq_speed}
[ -x "$program" ] || { echo "$program is missing: 'rt run' in crates/cq_speed builds it" >&2; exit 1; }
told=$(mktemp -d)
trap 'rm -rf "$told"' EXIT

"$program" moves "$rounds" < "$here/positions.txt"
[ $# -lt 2 ] || "$program" games < "$2"

stockfish=$(command -v stockfish || echo /usr/games/stockfish)
if [ -x "$stockfish" ]; then
    number=0
    for depth in 6 5; do
        number=$((number + 1))
        fen=$(sed -n "${number}p" "$here/positions.txt" | cut -d'|' -f1)
        printf 'position fen %s\ngo perft %s\nquit\n' "$fen" "$depth" > "$told/asked"
        seconds=$(bash -c "TIMEFORMAT=%U; time '$stockfish' < '$told/asked' > '$told/told'" 2>&1)
        nodes=$(sed -n 's/^Nodes searched: //p' "$told/told")
        echo "stockfish perft $depth: $nodes nodes, $(echo "$nodes $seconds" | awk '{ printf "%.0f", $1 / $2 }') a second"
    done
fi
