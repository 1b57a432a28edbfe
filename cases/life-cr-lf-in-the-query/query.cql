cql() // every mate
check mate
