cql(variations) depth >= 2 hascomment
