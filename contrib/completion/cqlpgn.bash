# Completion of cqlpgn, pgnjson, pgnpieces and the commands of the Python package for bash: `source contrib/completion/cqlpgn.bash` in ~/.bashrc, where `make install` or the package has not put it where bash-completion finds it.

_cqlpgn_offer() {
    # those of the lines that are names of files; a name with a line end comes as several lines, which are none. Bash quotes them
    local name
    while IFS= read -r name; do
        [[ $name != \~* && ! -e $name && ! -L $name ]] || COMPREPLY+=("$name")
    done
}

_cqlpgn_files() {
    # files whose names end so, and folders
    _cqlpgn_offer < <(compgen -d -- "$2"; compgen -f -- "$2" | grep -iE "\.($1)\$")
}

_cqlpgn_folders() {
    _cqlpgn_offer < <(compgen -d -- "$1")
}

_cqlpgn() {
    local word=${COMP_WORDS[COMP_CWORD]} before=${COMP_WORDS[COMP_CWORD - 1]} mode=${COMP_WORDS[1]:-}
    COMPREPLY=()
    if [ "$COMP_CWORD" = 1 ]; then
        mapfile -t COMPREPLY < <(compgen -W 'run eval many check explain selfrun' -- "$word")
        return
    fi
    case $before in
        --workers) mapfile -t COMPREPLY < <(compgen -W '1 2 4 8 16 32 64' -- "$word"); return ;;
        --limit | --seed | --games) return ;;
    esac
    case $mode:$word in
        selfrun:-*) mapfile -t COMPREPLY < <(compgen -W '--workers --seed --games' -- "$word") ;;
        many:-*) mapfile -t COMPREPLY < <(compgen -W '--workers --limit' -- "$word") ;;
        run:-* | eval:-*) mapfile -t COMPREPLY < <(compgen -W '--workers --limit --first' -- "$word") ;;
        run:* | many:*) if [ "$COMP_CWORD" = 2 ]; then _cqlpgn_files 'cql|txt' "$word"; else _cqlpgn_files pgn "$word"; fi ;;
        check:* | explain:*) [ "$COMP_CWORD" != 2 ] || _cqlpgn_files 'cql|txt' "$word" ;;
        eval:*) [ "$COMP_CWORD" = 2 ] || _cqlpgn_files pgn "$word" ;;
    esac
}

_cqlpgn_themes='back-rank-mate smothered-mate anastasia-mate arabian-mate boden-mate legal-mate hook-mate epaulette-mate dovetail-mate cozio-mate swallows-tail-mate opera-mate morphy-mate pillsbury-mate damiano-mate lolli-mate greco-mate two-bishops-mate suffocation-mate blackburne-mate reti-mate kill-box-mate triangle-mate vukovic-mate max-lange-mate corner-mate anderssen-mate balestra-mate blind-swine-mate david-and-goliath-mate fork-that-wins underpromotion double-check discovered-attack pin skewer greek-gift windmill isolated-queen-pawn hanging-pawns carlsbad-structure minority-attack maroczy-bind stonewall hedgehog french-chain doubled-pawns passed-pawn backward-pawn queenside-majority lucena-position philidor-position wrong-bishop opposite-bishops rook-behind-passed-pawn queen-against-pawn two-bishops-against-knight castling-lost one-man-thrice hung-piece'

_cqlpgn_over() {
    local word=${COMP_WORDS[COMP_CWORD]} before=${COMP_WORDS[COMP_CWORD - 1]}
    COMPREPLY=()
    case $before in
        -o) _cqlpgn_files pgn "$word"; return ;;
        --many | --check) _cqlpgn_files 'cql|txt' "$word"; return ;;
        --theme) mapfile -t COMPREPLY < <(compgen -W "$_cqlpgn_themes" -- "$word"); return ;;
        -j) mapfile -t COMPREPLY < <(compgen -W '2 4 8 16' -- "$word"); return ;;
        --workers) mapfile -t COMPREPLY < <(compgen -W '1 2 4 8 16 32 64' -- "$word"); return ;;
        --limit) return ;;
    esac
    case $word in
        -*)
            mapfile -t COMPREPLY < <(compgen -W '-o -c -q -p -j --keep-partial --first --number --many --summary --check --doubtful \
                --theme --themes --all-themes \
                --workers --limit --help' -- "$word") ;;
        *) _cqlpgn_files 'cql|pgn|gz|bz2|xz|zst|zip' "$word" ;;
    esac
}

_cqlpgn_mend() {
    local word=${COMP_WORDS[COMP_CWORD]} before=${COMP_WORDS[COMP_CWORD - 1]}
    COMPREPLY=()
    case $before in
        -o) _cqlpgn_files pgn "$word"; return ;;
        --report) _cqlpgn_files csv "$word"; return ;;
        --only | --not)
            mapfile -t COMPREPLY < <(compgen -W 'results notation castling captures checks letters glyphs brackets tags positions numbers nulls remarks bytes' -- "$word")
            return ;;
    esac
    case $word in
        -*) mapfile -t COMPREPLY < <(compgen -W '-o -q --only --not --report --dry-run --diff --help' -- "$word") ;;
        *) _cqlpgn_files 'pgn|gz|bz2|xz|zst|zip' "$word" ;;
    esac
}

_cqlpgn_split() {
    COMPREPLY=()
    [ "$COMP_CWORD" != 1 ] || _cqlpgn_folders "${COMP_WORDS[1]}"
}

_cqlpgn_problems() {
    local word=${COMP_WORDS[COMP_CWORD]} before=${COMP_WORDS[COMP_CWORD - 1]}
    COMPREPLY=()
    case $before:$word in
        -o:*) _cqlpgn_files pgn "$word" ;;
        *:-*) mapfile -t COMPREPLY < <(compgen -W '-o --strict --help' -- "$word") ;;
        *) _cqlpgn_files 'olv|yaml|yml|txt' "$word" ;;
    esac
}

_cqlpgn_diagrams() {
    local word=${COMP_WORDS[COMP_CWORD]} before=${COMP_WORDS[COMP_CWORD - 1]}
    COMPREPLY=()
    case $before in
        --mark | --title) return ;;
        --flip) mapfile -t COMPREPLY < <(compgen -W 'never side-to-move' -- "$word"); return ;;
        --per-page) mapfile -t COMPREPLY < <(compgen -W '8 12' -- "$word"); return ;;
        -o) _cqlpgn_files 'html|tex' "$word"; return ;;
    esac
    case $word in
        -*)
            mapfile -t COMPREPLY < <(compgen -W '--tex --exercises --mark --title --flip --coordinates --per-page -o --help' -- "$word") ;;
        *) _cqlpgn_files 'pgn|gz|bz2|xz|zst|zip' "$word" ;;
    esac
}

_cqlpgn_rows() {
    local word=${COMP_WORDS[COMP_CWORD]} before=${COMP_WORDS[COMP_CWORD - 1]}
    COMPREPLY=()
    case $before in
        --mark | --columns) return ;;
        --index | -o) _cqlpgn_files csv "$word"; return ;;
    esac
    case $word in
        -*) mapfile -t COMPREPLY < <(compgen -W '--csv --json --epd --columns --mark --index -o --help' -- "$word") ;;
        *) _cqlpgn_files 'pgn|gz|bz2|xz|zst|zip' "$word" ;;
    esac
}

_cqlpgn_pick() {
    local word=${COMP_WORDS[COMP_CWORD]} before=${COMP_WORDS[COMP_CWORD - 1]}
    COMPREPLY=()
    case $before in
        --where | --sample | --seed | --split | --limit) return ;;
        --by) mapfile -t COMPREPLY < <(compgen -W 'moves players' -- "$word"); return ;;
        --split-by) mapfile -t COMPREPLY < <(compgen -W 'year player Event White Black ECO' -- "$word"); return ;;
        --workers) mapfile -t COMPREPLY < <(compgen -W '1 2 4 8 16 32 64' -- "$word"); return ;;
        --rows) _cqlpgn_files csv "$word"; return ;;
        -o) _cqlpgn_files pgn "$word"; return ;;
    esac
    case $word in
        -*)
            mapfile -t COMPREPLY < <(compgen -W '--where --variations --faulty --duplicates --by --rows --sample --seed -v --as-given \
                --split-by --split -o --workers --limit --help' -- "$word") ;;
        *) _cqlpgn_files 'pgn|gz|bz2|xz|zst|zip' "$word" ;;
    esac
}

_cqlpgn_desk() {
    local word=${COMP_WORDS[COMP_CWORD]}
    COMPREPLY=()
    case $word in
        -*) mapfile -t COMPREPLY < <(compgen -W '--port --runs --no-browser --help' -- "$word") ;;
        *) _cqlpgn_folders "$word" ;;
    esac
}

_pgnjson() {
    local word=${COMP_WORDS[COMP_CWORD]} before=${COMP_WORDS[COMP_CWORD - 1]}
    COMPREPLY=()
    case $before:$word in
        --workers:*) mapfile -t COMPREPLY < <(compgen -W '1 2 4 8 16 32 64' -- "$word") ;;
        --mark:* | --limit:*) ;;
        *:-*) mapfile -t COMPREPLY < <(compgen -W '--mark --workers --limit' -- "$word") ;;
        *) _cqlpgn_files pgn "$word" ;;
    esac
}

_pgnpieces() {
    COMPREPLY=()
    [ "$COMP_CWORD" != 1 ] || _cqlpgn_files pgn "${COMP_WORDS[1]}"
}

complete -o filenames -F _cqlpgn cqlpgn
complete -o filenames -F _pgnjson pgnjson
complete -o filenames -F _pgnpieces pgnpieces
complete -o filenames -F _cqlpgn_over cqlpgn-over
complete -o filenames -F _cqlpgn_mend cqlpgn-mend
complete -o filenames -o nospace -F _cqlpgn_split cqlpgn-split
complete -o filenames -F _cqlpgn_problems cqlpgn-problems
complete -o filenames -F _cqlpgn_diagrams cqlpgn-diagrams
complete -o filenames -F _cqlpgn_rows cqlpgn-rows
complete -o filenames -F _cqlpgn_pick cqlpgn-pick
complete -o filenames -F _cqlpgn_desk cqlpgn-desk
