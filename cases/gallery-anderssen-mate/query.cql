cql() mate flipcolor fliphorizontal { kg8 [RQ]h8 Pg7 }
