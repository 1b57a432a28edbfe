cql() mate flipcolor { [RQ]a-h8 attacks ka-h8 #((southwest 1 k | down 1 k | southeast 1 k) & p) >= 2 }
