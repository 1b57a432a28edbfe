cql() mate flipcolor { B attacks k k[a-h8,a-h1,a1-8,h1-8] not Q attacks k
  #((anydirection 1 k & ~a) attackedby Q) >= 2 not [RN] attacks (anydirection 1 k & ~a) }
