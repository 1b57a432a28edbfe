cql() echo
