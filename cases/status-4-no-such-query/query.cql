cql() check
