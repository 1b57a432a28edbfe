#!/usr/bin/env bash
# Fetches problems with solutions, makes games of them, and prints the figures of docs/PROBLEMS.md: what is written of each kind of
# stipulation, and what the program says of the games.
#
#   bench/problems.sh FOLDER
#
# The collections are fourteen files of Debian's package pychess, which is fetched into FOLDER, unpacked there, and not installed. The games
# lie in FOLDER/problems.pgn then, what is left out in FOLDER/problems.err. CQLPGN names the program, if it isn't the one that this
# repository builds.
set -eu
folder=${1:?usage: bench/problems.sh FOLDER}
top=$(cd "$(dirname "$0")/.." && pwd)
program=${CQLPGN:-$top/crates/cqlpgn/out/cqlpgn}
[ -x "$program" ] || { echo "$program is missing: make build builds it" >&2; exit 1; }
mkdir -p "$folder"
cd "$folder"

puzzles=usr/share/pychess/learn/puzzles
[ -d "$puzzles" ] || { apt-get download pychess && dpkg-deb -x pychess_*.deb .; }
"$top/python/bin/cqlpgn-problems" -o problems.pgn "$puzzles"/*.olv 2> problems.err
python3 "$top/bench/problems.py" "$puzzles"/*.olv

# how many positions a query marks
marks() { "$program" eval "cql(variations) $1" problems.pgn 2> /dev/null | grep -o '{CQL}' | wc -l; }

echo
tail -n "$(($(wc -l < problems.err) - $(grep -n '^records ' problems.err | cut -d: -f1) + 1))" problems.err
"$program" eval 'cql(variations matchstring "") initial' problems.pgn > again.pgn
cmp problems.pgn again.pgn && echo "export: the same bytes"
echo "moves that are marked as mates: $(grep -v '^\[' problems.pgn | tr '\n' ' ' | sed 's/{[^}]*}//g' | tr -cd '#' | wc -c)"
for query in 'mate' 'mate not terminal' 'terminal not mate'; do echo "$query: $(marks "$query")"; done
