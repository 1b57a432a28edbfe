cql() flipcolor { pa6 pb6 pd6 pe6 #pc1-8 == 0 Pc4 }
