cql() terminal
