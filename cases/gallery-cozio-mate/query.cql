cql() mate flipcolor fliphorizontal { square x in Q & northwest 1 k { x attackedby A } down 1 k & a right 1 k & a }
