cql(variations matchstring "here") Pc4
