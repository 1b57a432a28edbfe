cql() flipcolor line --> {btm move from B to h7 capture ph7} --> {move from k to h7} --> {move from N to g5 check}
  --> . --> {move from Q to [g4,h5,d3]}
