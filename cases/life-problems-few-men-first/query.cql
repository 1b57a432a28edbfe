cql() initial sort min "men" #(A | a)
