cql() mate flip flipcolor { square x in R & up 1 k { southeast 2 x & Q x attackedby Q } }
