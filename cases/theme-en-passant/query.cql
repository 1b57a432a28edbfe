cql() flipcolor move from Pa-h5 to a-h6 capture pa-h5
