cql() event "\"
