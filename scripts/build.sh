#!/usr/bin/env bash
# Proves the programs and all crates below them, lowest first, and builds them: `make build`.
#
# A line tells of each crate when it is begun, and how long it took. What a crate said stands in its out/build.log, which is shown where the
# crate fails. A run that was broken off goes on where it stood.
cd "$(dirname "$0")/.." || exit 1
command -v rt > /dev/null || { echo "rt is not on the path: README says, under \"Installing it\", where it comes from" >&2; exit 1; }

# Each pair of a crate and one below it, as crates.txt has them: tsort gives the crates lowest first.
pairs() {
    awk -F: '!/^#/ && NF == 2 { print $1, $1; n = split($2, below, " "); for (i = 1; i <= n; i++) print below[i], $1 }' crates.txt
}

# The crates of this repository below one, itself too.
below() {
    local found=" $1 " crate
    for crate in $(pairs | tsort | tac); do
        [[ $found == *" $crate "* ]] && found+="$(sed -n "s/^$crate: *//p" crates.txt) "
    done
    for crate in $(pairs | tsort); do
        [[ $found == *" $crate "* && -d crates/$crate ]] && echo "$crate"
    done
}

mapfile -t all < <({ below cqlpgn; below pgnpieces; below pgnjson; } | awk '!seen[$0]++')
echo "${#all[@]} crates, up to an hour the first time on four processors"
number=0
for crate in "${all[@]}"; do
    number=$((number + 1))
    printf '%2d of %d  %-14s' "$number" "${#all[@]}" "$crate"
    from=$SECONDS
    mkdir -p "crates/$crate/out"
    # a program is run once it is built: without words it writes its usage, and ends with status 3, but pgnjson, which reads nothing then
    case $crate in cqlpgn | pgnpieces) verb=run good=3 ;; pgnjson) verb=run good=0 ;; *) verb=lib good=0 ;; esac
    (cd "crates/$crate" && rt "$verb" > out/build.log 2>&1 < /dev/null)
    status=$?
    if [ "$status" -ne "$good" ]; then
        echo " failed"
        tail -n 30 "crates/$crate/out/build.log" >&2
        exit 1
    fi
    echo " $((SECONDS - from)) s"
done
ls -l crates/cqlpgn/out/cqlpgn crates/pgnpieces/out/pgnpieces crates/pgnjson/out/pgnjson
