cql() initial not rotate90 not find Ka1
