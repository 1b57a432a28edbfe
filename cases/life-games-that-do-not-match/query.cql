cql() initial not find check
