cql(variations matchstring "mate!") mate variation
