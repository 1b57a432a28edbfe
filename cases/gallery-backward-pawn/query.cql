cql() flipcolor { square x in pa-h5-7 { not up 0 7 (left 1 x | right 1 x) & p not down x & P down x & [RQ] down 1 x attackedby P } }
