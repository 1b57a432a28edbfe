cql() player "First"
