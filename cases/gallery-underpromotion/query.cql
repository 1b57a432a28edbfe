cql() flipcolor { btm move promote [RBN] }
