cql() flipcolor (line --> ({btm check} --> wtm){1,20}) >= 8
