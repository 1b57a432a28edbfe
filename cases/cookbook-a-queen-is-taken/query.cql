cql() move capture [Qq]
