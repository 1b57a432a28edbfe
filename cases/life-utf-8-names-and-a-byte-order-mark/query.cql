cql() player "Müller"
