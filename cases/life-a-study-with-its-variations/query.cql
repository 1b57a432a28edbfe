cql(variations) check
