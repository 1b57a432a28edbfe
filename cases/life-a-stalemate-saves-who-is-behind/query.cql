cql() flipcolor { stalemate btm power A - power a >= 5 }
