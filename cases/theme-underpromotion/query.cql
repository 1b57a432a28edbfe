cql() flipcolor move promote [RBN]
