cql() flipcolor { Pc3 Pd4 Pe3 Pf4 }
