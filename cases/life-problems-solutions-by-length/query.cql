cql() terminal sort min "moves" ply comment "end"
