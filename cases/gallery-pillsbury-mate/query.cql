cql() mate flipcolor fliphorizontal { [RQ]g1-6 attacks kg8 B attacks h8 #a[f7,f8,h7] >= 2 }
