cql() flipcolor line --> ({btm B attacks k move from R} --> wtm --> {btm R attacks k} --> wtm){2,10}
