cql() initial
