cql() mate flip flipcolor { square x in Q & southwest 1 k { up 2 x & R x attackedby R } }
