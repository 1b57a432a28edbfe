cql() flipcolor { mate N attacks k not (anydirection 1 k & ~a) }
