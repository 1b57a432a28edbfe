cql() flipcolor { Ng1 parent not Ng1 }
