cql() event "Café"
