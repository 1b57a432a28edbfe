cql() player "Müller" check
