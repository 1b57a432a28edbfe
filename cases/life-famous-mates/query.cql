cql() mate
