cql() flipcolor { P & up P }
