cql() elo white > elo black initial
