cql() P[e6] year == 1972
