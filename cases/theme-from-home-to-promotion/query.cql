cql() flipcolor line --> {move from Pa-h2} --> wtm --> ({btm move from P} --> wtm){3,4} --> {move promote A}
