// smothered mates
cql() flipcolor { mate N attacks k not (anydirection 1 k & ~a) }
%%
// promotions to rook, bishop or knight
cql() flipcolor move promote [RBN]
%%
// stalemates
cql() stalemate
%%
// double checks
cql() flipcolor { btm #(A attacks k) >= 2 }
%%
// every mate, the shortest game first
cql() mate sort min "moves" movenumber
