cql() flipcolor { Pd4 Pe5 pd5 pe6 }
