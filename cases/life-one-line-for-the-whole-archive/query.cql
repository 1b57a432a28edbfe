cql() Nf3
