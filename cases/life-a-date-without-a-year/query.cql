cql() initial not year > 0
