cql() initial #(A | a) <= 4
