#!/usr/bin/env bash
# The games of examples/games.pgn with a white queen on f7: `make demo`.
#
# `rt try` compiles the program without its proofs, so that it answers soon, and says so in lines of its own below the program's: these
# are left out. One of the games is faulty, so the program ends with status 1, and the line of that game comes before the counts.
cd "$(dirname "$0")/../crates/cqlpgn" || exit 1
command -v rt > /dev/null || { echo "rt is not on the path: README says, under \"Installing it\", where it comes from" >&2; exit 1; }
echo 'Compiling without proofs, which takes about a minute. Then: cqlpgn eval "cql() Qf7" examples/games.pgn' >&2
rt try -- eval 'cql() Qf7' < ../../examples/games.pgn \
    2> >(grep -Ev '^(interpreter|checked|races): |^run=ended .*proved=no$' >&2)
status=$?
wait
[ "$status" -eq 1 ]
