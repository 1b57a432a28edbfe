cql() mate flipcolor fliphorizontal { kh8 ah7 B attacks k Rg1-7 }
