"""What bash, zsh and fish offer for a command line, by the files of contrib/completion."""

from __future__ import annotations

import shutil
import subprocess
from pathlib import Path

import pytest
from tests.conftest import TOP
from tests.processes import PATIENCE

FOLDER = TOP / "contrib" / "completion"
FILES = ["games.pgn", "q.cql", "packed.pgn.gz", "loyd.olv"]

# A command line that is not finished, and words that must be among what it is completed to.
LINES = [
    ("cqlpgn ", "run eval many check explain selfrun"),
    ("cqlpgn run ", "q.cql"),
    ("cqlpgn run q.cql ", "games.pgn"),
    ("cqlpgn many ", "q.cql"),
    ("cqlpgn many q.cql ", "games.pgn"),
    ("cqlpgn many q.cql --", "--workers --limit"),
    ("cqlpgn eval x g", "games.pgn"),
    ("cqlpgn eval x --", "--workers --limit --first"),
    ("cqlpgn selfrun x --", "--seed --games --workers"),
    ("pgnjson g", "games.pgn"),
    ("pgnjson --", "--mark --workers --limit"),
    ("pgnpieces ", "games.pgn"),
    ("cqlpgn-over ", "q.cql games.pgn packed.pgn.gz"),
    ("cqlpgn-over -", "-o -c -q -p -j --first --number --many --check --doubtful --workers --limit"),
    ("cqlpgn-over --", "--theme --themes --all-themes"),
    ("cqlpgn-over --theme sm", "smothered-mate"),
    ("cqlpgn-mend -", "-o -q --only --not --report --dry-run --diff"),
    ("cqlpgn-mend g", "games.pgn"),
    ("cqlpgn-mend --only ", "results notation castling captures checks letters glyphs brackets tags positions numbers nulls remarks bytes"),
    ("cqlpgn-over --many ", "q.cql"),
    ("cqlpgn-split ../", "found work"),
    ("cqlpgn-problems ", "loyd.olv"),
    ("cqlpgn-problems -", "-o --strict"),
    ("cqlpgn-diagrams --", "--tex --exercises --mark --title --flip"),
    ("cqlpgn-diagrams --flip ", "never side-to-move"),
    ("cqlpgn-rows --", "--csv --json --epd --columns --mark"),
    ("cqlpgn-rows g", "games.pgn"),
    ("cqlpgn-desk --", "--port --runs --no-browser"),
    ("cqlpgn-diagrams g", "games.pgn"),
    ("cqlpgn-rows p", "packed.pgn.gz"),
    ("cqlpgn-pick g", "games.pgn"),
    ("cqlpgn-pick --", "--where --variations --faulty --duplicates --by --rows --sample --seed --as-given --split-by --split"),
    ("cqlpgn-pick --by ", "moves players"),
]

BASH = r"""
source "$1/cqlpgn.bash"
read -ra COMP_WORDS <<< "$2"
[[ $2 == *" " ]] && COMP_WORDS+=("")
COMP_CWORD=$((${#COMP_WORDS[@]} - 1))
"$(complete -p "${COMP_WORDS[0]}" | sed "s/.*-F \([^ ]*\).*/\1/")"
printf "%s\n" "${COMPREPLY[@]}"
"""
FISH = "source $argv[1]/cqlpgn.fish; complete -C $argv[2]"
# zsh completes at a terminal alone, so a second one is run at one. Its screen is read until it has what is wanted, or nothing more comes
# for some seconds. What is typed ahead would keep it from showing its list.
ZSH = r"""
zmodload zsh/zpty
zpty -b z zsh -f -i
read_until() {
    local out seen word turn=0
    while (( turn++ < 50 )); do
        zpty -rt z out && { seen+=$out; turn=0; continue }
        for word; do [[ $seen == *$word* ]] || { sleep 0.1; continue 2 }; done
        break
    done
    print -r -- $seen
}
zpty -w z "PS1=; fpath=(${(q)1} \$fpath); autoload -U compinit; compinit -D -u; LISTMAX=999; unsetopt automenu; print BE\"\"GUN"
read_until BEGUN > /dev/null
zpty -n -w z $2$'\t\t'
read_until ${@:3}
"""
SHELLS = {"bash": ["bash", "-c", BASH, "-"], "fish": ["fish", "-N", "-c", FISH], "zsh": ["zsh", "-f", "-c", ZSH, "-"]}


@pytest.mark.parametrize(("line", "wanted"), LINES)
@pytest.mark.parametrize("shell", SHELLS)
def test_completion(tmp_path: Path, shell: str, line: str, wanted: str) -> None:
    if shutil.which(shell) is None:
        pytest.skip(f"{shell} is not installed")
    room = tmp_path / "work"
    for folder in (room, tmp_path / "found"):
        folder.mkdir()
    for name in FILES:
        (room / name).touch()
    call = [*SHELLS[shell], str(FOLDER), line, *(wanted.split() if shell == "zsh" else [])]
    done = subprocess.run(call, cwd=room, stdin=subprocess.DEVNULL, capture_output=True, timeout=PATIENCE, check=False)
    offered = done.stdout.decode("utf-8", "replace").replace("\r", "")
    assert [word for word in wanted.split() if word not in offered] == [], offered
