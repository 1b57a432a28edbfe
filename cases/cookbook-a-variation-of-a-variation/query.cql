cql(variations) depth >= 2
