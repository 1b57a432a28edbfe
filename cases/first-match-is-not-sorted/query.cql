cql() sort "ply" ply check
