cql() flipcolor { Pd4-5 #Pd1-8 == 1 #P[c1-8,e1-8] == 0 #pd1-8 == 0 p[c1-8,e1-8] #[QRBNqrbn] >= 6 }
