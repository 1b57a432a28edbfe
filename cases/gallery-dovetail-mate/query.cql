cql() mate flipcolor fliphorizontal { square x in Q & southwest 1 k { x attackedby A } up 1 k & a right 1 k & a }
