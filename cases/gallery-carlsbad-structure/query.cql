cql() flipcolor { Pd4 Pe2-3 #Pc1-8 == 0 pd5 pc6-7 #pe1-8 == 0 #Pa-b1-8 == 2 #pa-b1-8 == 2 }
