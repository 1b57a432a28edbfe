cql() mate sort "rating" elo sort min "length" ply
