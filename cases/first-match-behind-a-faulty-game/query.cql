cql() Pd4
