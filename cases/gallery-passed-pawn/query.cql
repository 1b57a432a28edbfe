cql() flipcolor { Pa-h5-7 & ~(down p | down left 1 p | down right 1 p) }
