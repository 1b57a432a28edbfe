cql() flipcolor { Pc4-5 Pd4-5 #Pc-d1-8 == 2 #P[b1-8,e1-8] == 0 #pc-d1-8 == 0 #[QRBNqrbn] >= 6 }
