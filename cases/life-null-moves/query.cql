cql(variations) move from A not wtm
