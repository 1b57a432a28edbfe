cql() move from Ke1 to g1
