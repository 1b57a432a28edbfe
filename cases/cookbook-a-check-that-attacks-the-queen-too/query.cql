cql() flipcolor { btm check N attacks q }
