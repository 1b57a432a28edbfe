cql() mate rotate90 flipcolor { ka-h8 down 2 k & N square x in R & down 1 k { x attackedby A } }
