cql() flipcolor line --> ({btm R attacks k} --> wtm --> {btm B attacks k move from R} --> wtm){2}
