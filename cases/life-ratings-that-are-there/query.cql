cql() elo >= 1800 terminal
