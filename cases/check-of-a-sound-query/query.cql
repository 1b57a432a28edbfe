cql() flipcolor { btm #(A attacks k) >= 2 } // double check
