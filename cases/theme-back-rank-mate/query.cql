cql() flipcolor { mate [RQ]a-h8 attacks ka-h8 not ((southwest 1 k | down 1 k | southeast 1 k) & ~p) }
