# Completion of cqlpgn, pgnjson, pgnpieces and the commands of the Python package for fish: the file lies in ~/.config/fish/completions.

function __cqlpgn_place --description 'is the word before the cursor this one, counted from 1 and without options'
    set -l words (commandline -opc | string match -v -- '-*')
    test (count $words) -eq $argv[1]
end

function __cqlpgn_mode
    set -l words (commandline -opc)
    test (count $words) -ge 2; and contains -- $words[2] $argv
end

function __cqlpgn_folders --description 'folders; a name with a line end comes as several lines, which are none'
    for line in (__fish_complete_directories)
        set -l name (string split -m 1 \t -- $line)[1]
        if test -d "$name"; or string match -q -- '~*' "$name"
            printf '%s\n' $line
        end
    end
end

complete -c cqlpgn -f
complete -c cqlpgn -n '__cqlpgn_place 1' -a run -d 'answers the query in a file over an archive'
complete -c cqlpgn -n '__cqlpgn_place 1' -a eval -d 'answers a query that is given as a word over an archive'
complete -c cqlpgn -n '__cqlpgn_place 1' -a many -d 'answers the queries in a file over one reading of an archive'
complete -c cqlpgn -n '__cqlpgn_place 1' -a check -d 'says whether the query in a file has a fault, and where'
complete -c cqlpgn -n '__cqlpgn_place 1' -a explain -d 'writes what the query in a file means without transforms'
complete -c cqlpgn -n '__cqlpgn_place 1' -a selfrun -d 'answers a query over games that are made'
complete -c cqlpgn -n '__cqlpgn_mode run many check explain; and __cqlpgn_place 2' -a '(__fish_complete_suffix .cql)' -d query
complete -c cqlpgn -n '__cqlpgn_mode run eval many; and __cqlpgn_place 3' -a '(__fish_complete_suffix .pgn)' -d archive
complete -c cqlpgn -n '__cqlpgn_mode run eval many selfrun' -l workers -x -a '1 2 4 8 16 32 64' -d '1 to 64 workers'
complete -c cqlpgn -n '__cqlpgn_mode run eval many' -l limit -x -d 'refuses an archive of more bytes'
complete -c cqlpgn -n '__cqlpgn_mode run eval' -l first -d 'the first game that matches alone'
complete -c cqlpgn -n '__cqlpgn_mode selfrun' -l seed -x -d 'the seed of the games'
complete -c cqlpgn -n '__cqlpgn_mode selfrun' -l games -x -d 'how many games'

complete -c pgnjson -l mark -x -d 'the comment of a marked position'
complete -c pgnjson -l workers -x -a '1 2 4 8 16 32 64' -d '1 to 64 workers'
complete -c pgnjson -l limit -x -d 'refuses an archive of more bytes'

complete -c pgnpieces -f
complete -c pgnpieces -n '__cqlpgn_place 1' -a '(__fish_complete_suffix .pgn)' -d archive

complete -c cqlpgn-over -s o -r -d 'where the games go'
complete -c cqlpgn-over -s c -d 'counts alone'
complete -c cqlpgn-over -s q -d 'the status alone'
complete -c cqlpgn-over -s p -d 'no marks'
complete -c cqlpgn-over -s j -x -a '2 4 8 16' -d 'so many archives at once'
complete -c cqlpgn-over -l keep-partial -d 'a file with any status'
complete -c cqlpgn-over -l first -d 'the first game alone'
complete -c cqlpgn-over -l number -d 'where each game came from'
complete -c cqlpgn-over -l many -r -d 'a file of queries'
complete -c cqlpgn-over -l summary -d 'a last table'
complete -c cqlpgn-over -l check -d 'checks files with queries'
complete -c cqlpgn-over -l doubtful -d 'games that may not be what was meant'
complete -c cqlpgn-over -l theme -x -a 'back-rank-mate smothered-mate anastasia-mate arabian-mate boden-mate legal-mate hook-mate epaulette-mate dovetail-mate cozio-mate swallows-tail-mate opera-mate morphy-mate pillsbury-mate damiano-mate lolli-mate greco-mate two-bishops-mate suffocation-mate blackburne-mate reti-mate kill-box-mate triangle-mate vukovic-mate max-lange-mate corner-mate anderssen-mate balestra-mate blind-swine-mate david-and-goliath-mate fork-that-wins underpromotion double-check discovered-attack pin skewer greek-gift windmill isolated-queen-pawn hanging-pawns carlsbad-structure minority-attack maroczy-bind stonewall hedgehog french-chain doubled-pawns passed-pawn backward-pawn queenside-majority lucena-position philidor-position wrong-bishop opposite-bishops rook-behind-passed-pawn queen-against-pawn two-bishops-against-knight castling-lost one-man-thrice hung-piece' -d 'a theme by its name'
complete -c cqlpgn-over -l themes -d 'lists the themes'
complete -c cqlpgn-over -l all-themes -d 'which themes an archive has'
complete -c cqlpgn-over -l workers -x -a '1 2 4 8 16 32 64' -d '1 to 64 workers'
complete -c cqlpgn-over -l limit -x -d 'refuses an archive of more bytes'
complete -c cqlpgn-over -l help -d 'explains the words'

complete -c cqlpgn-mend -s o -r -d 'where the archive goes'
complete -c cqlpgn-mend -s q -d 'the sums alone'
complete -c cqlpgn-mend -l only -x -a 'results notation castling captures checks letters glyphs brackets tags positions numbers nulls remarks bytes' -d 'changes of these classes alone'
complete -c cqlpgn-mend -l not -x -a 'results notation castling captures checks letters glyphs brackets tags positions numbers nulls remarks bytes' -d 'no changes of these classes'
complete -c cqlpgn-mend -l report -r -d 'a row for each change'
complete -c cqlpgn-mend -l dry-run -d 'no archive is written'
complete -c cqlpgn-mend -l diff -d 'what differs'
complete -c cqlpgn-mend -l help -d 'explains the words'

complete -c cqlpgn-split -f
complete -c cqlpgn-split -n '__cqlpgn_place 1' -a '(__cqlpgn_folders)' -d 'where the files go'
complete -c cqlpgn-split -l help -d 'explains the words'

complete -c cqlpgn-problems -s o -r -d 'where the games go'
complete -c cqlpgn-problems -l strict -d 'status 1 where something is left out'
complete -c cqlpgn-problems -l help -d 'explains the words'

complete -c cqlpgn-diagrams -l tex -d 'a text for LaTeX'
complete -c cqlpgn-diagrams -l mark -x -d 'the comment of a marked position'
complete -c cqlpgn-diagrams -l title -x -d 'the title'
complete -c cqlpgn-diagrams -l exercises -d 'boards alone'
complete -c cqlpgn-diagrams -l flip -x -a 'never side-to-move' -d 'turned boards'
complete -c cqlpgn-diagrams -l coordinates -d 'at the edges'
complete -c cqlpgn-diagrams -l per-page -x -a '8 12' -d 'boards of a printed page'
complete -c cqlpgn-diagrams -s o -r -d 'where the page goes'
complete -c cqlpgn-diagrams -l help -d 'explains the words'

complete -c cqlpgn-rows -l csv -d CSV
complete -c cqlpgn-rows -l json -d 'lines of JSON'
complete -c cqlpgn-rows -l epd -d EPD
complete -c cqlpgn-rows -l columns -x -d 'the columns'
complete -c cqlpgn-rows -l mark -x -d 'the comment of a marked position'
complete -c cqlpgn-rows -l index -r -d 'where the games came from'
complete -c cqlpgn-rows -s o -r -d 'where the rows go'
complete -c cqlpgn-rows -l help -d 'explains the words'

complete -c cqlpgn-pick -l where -x -d 'the games that meet an expression'
complete -c cqlpgn-pick -l variations -d 'moves of variations are asked too'
complete -c cqlpgn-pick -l faulty -d 'the games that the reader refuses'
complete -c cqlpgn-pick -l duplicates -d 'the games that were there before'
complete -c cqlpgn-pick -l by -x -a 'moves players' -d 'what makes two games the same'
complete -c cqlpgn-pick -l rows -r -d 'the games that rows name'
complete -c cqlpgn-pick -l sample -x -d 'so many games, drawn at random'
complete -c cqlpgn-pick -l seed -x -d 'the same games each time'
complete -c cqlpgn-pick -s v -d 'all others'
complete -c cqlpgn-pick -l as-given -d 'in the order of the numbers'
complete -c cqlpgn-pick -l split-by -x -a 'year player Event White Black ECO' -d 'a file for each value of a tag'
complete -c cqlpgn-pick -l split -x -d 'files of so many games'
complete -c cqlpgn-pick -s o -r -d 'where the games go'
complete -c cqlpgn-pick -l workers -x -a '1 2 4 8 16 32 64' -d '1 to 64 workers'
complete -c cqlpgn-pick -l limit -x -d 'refuses an archive of more bytes'
complete -c cqlpgn-pick -l help -d 'explains the words'

complete -c cqlpgn-desk -f
complete -c cqlpgn-desk -n '__cqlpgn_place 1' -a '(__cqlpgn_folders)' -d 'where the archives are'
complete -c cqlpgn-desk -l port -x -d 'a port of this machine'
complete -c cqlpgn-desk -l runs -x -d 'how many runs go at once'
complete -c cqlpgn-desk -l no-browser -d 'the address is printed alone'
complete -c cqlpgn-desk -l help -d 'explains the words'
