cql() flipcolor { #A == 3 #a == 2 R ra-h6 Ka-h1-5 ka-h7-8 square x in Pa-h4-5 { k & (up x | up left 1 x | up right 1 x) } }
