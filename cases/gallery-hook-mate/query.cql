cql() mate flipcolor { a & anydirection 1 k square x in R & orthogonal 1 k { square y in N { x attackedby y y attackedby P } } }
