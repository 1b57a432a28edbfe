cql() mate flipcolor fliphorizontal { kh8 ah7 N attacks k [RQ]g1-7 }
