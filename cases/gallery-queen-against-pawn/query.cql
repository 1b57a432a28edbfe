cql() flipcolor { #A == 2 #a == 2 Q pa-h2 }
