cql(variations) (line primary --> Pe4*) >= 4
