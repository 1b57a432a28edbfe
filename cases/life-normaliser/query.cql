cql(matchstring "") initial
