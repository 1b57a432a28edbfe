#!/bin/sh
# Writes the query that finds a position: each man on its square, no other man on the board, and the side to move.
#
#   sh position.sh 'FEN' ['TRANSFORMS']
#
# Castling rights, the en passant square and the numbers of a FEN are not asked. Where the FEN has the men alone, either side may be to
# move. With TRANSFORMS, as 'flipcolor fliphorizontal', the mirrored positions are found too.
echo "$1" | awk -v transforms="$2" '{
  rank = 8; file = 1; men = 0; query = ""
  for (i = 1; i <= length($1); i++) {
    c = substr($1, i, 1)
    if (c == "/") { rank--; file = 1 }
    else if (c ~ /[1-8]/) file += c
    else { query = query c substr("abcdefgh", file, 1) rank " "; file++; men++ }
  }
  query = query "#(A | a) == " men ($2 == "w" ? " wtm" : $2 == "b" ? " btm" : "")
  print "cql()", transforms == "" ? query : transforms " { " query " }"
}'
