cql() hascomment
