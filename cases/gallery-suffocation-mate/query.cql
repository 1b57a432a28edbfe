cql() mate flipcolor { N attacks k B attacks (anydirection 1 k & ~a) #(a & anydirection 1 k) >= 2
  not [RQ] attacks (anydirection 1 k & ~a) }
