cql() flipcolor { btm #(A attacks k) >= 2 }
