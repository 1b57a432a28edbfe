cql() Pe4
