cql(variations) hascomment variation
