cql(matchstring "") mate comment "mate" comment "the end"
