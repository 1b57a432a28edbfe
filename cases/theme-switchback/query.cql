cql() initial square x in B { find { not (x & B) find (x & B) } }
