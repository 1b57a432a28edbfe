cql() initial btm
