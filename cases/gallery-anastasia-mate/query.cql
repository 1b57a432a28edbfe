cql() mate flipcolor fliphorizontal { [RQ]h1-8 attacks kh2-7 left 1 k & a left 3 k & N }
