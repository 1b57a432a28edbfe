cql() mate flipcolor fliphorizontal { kg8 Qh7 Pg6 }
