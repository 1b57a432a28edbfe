cql() initial find { Ra1 find { Rh1 find { Rh8 find Ra8 } } }
