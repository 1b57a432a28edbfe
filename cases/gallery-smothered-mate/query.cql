cql() mate flipcolor { N attacks k not (anydirection 1 k & ~a) }
