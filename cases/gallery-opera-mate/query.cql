cql() mate flipcolor { a & anydirection 1 k square x in [RQ]a-h8 & (left 1 k | right 1 k) { x attackedby B } }
