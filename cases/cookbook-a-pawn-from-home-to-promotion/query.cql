cql() flipcolor line --> {move from Pa-h2} --> wtm --> ({btm move from P} --> wtm){2,5} --> {move promote A}
