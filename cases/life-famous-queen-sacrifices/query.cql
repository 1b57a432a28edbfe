cql() flipcolor { move from a capture Q find mate }
