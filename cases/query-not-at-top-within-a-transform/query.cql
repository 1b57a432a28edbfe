cql() flipcolor sort "pawns" #P
