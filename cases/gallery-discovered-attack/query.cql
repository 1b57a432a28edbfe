cql() flipcolor { check btm move from A not move from K square x in [RBQ] { x attacks k not move to x } }
