cql() flipcolor { #A == 3 #a == 2 R r square x in Pb-g7 { up 1 x & K not anydirection 1 x & k } }
