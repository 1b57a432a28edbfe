cql() result 1/2-1/2 terminal
