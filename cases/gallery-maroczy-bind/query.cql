cql() flipcolor { Pc4 Pe4 #Pd1-8 == 0 #pc1-8 == 0 pd6-7 }
