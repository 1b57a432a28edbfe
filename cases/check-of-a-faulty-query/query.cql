cql()
check
maet
