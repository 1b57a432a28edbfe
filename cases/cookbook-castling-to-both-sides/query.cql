cql() initial find move from Ke1 to g1 find move from ke8 to c8
