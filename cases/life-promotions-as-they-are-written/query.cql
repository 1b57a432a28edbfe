cql() #Q >= 1 wtm or #Q >= 1
