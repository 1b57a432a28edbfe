cql() mate flipcolor fliphorizontal { [RQ]h1-6 attacks kh8 ag7 B attacks g8 }
