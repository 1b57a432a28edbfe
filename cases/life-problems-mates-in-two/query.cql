cql() initial wtm (line --> .* --> mate) == 4
