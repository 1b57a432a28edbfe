cql() mate flipcolor fliphorizontal { kg8 Bh7 Ng5 B attacks g7 }
