cql(matchstring "") initial player "anna"
