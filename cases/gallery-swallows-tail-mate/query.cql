cql() mate rotate90 flipcolor { square x in Q & down 1 k { x attackedby A } northwest 1 k & a northeast 1 k & a }
