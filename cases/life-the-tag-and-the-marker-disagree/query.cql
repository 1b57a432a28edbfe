cql() terminal result 1-0
