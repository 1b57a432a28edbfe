cql() mate flipcolor fliphorizontal { kh7 Qg8 Bf7 }
