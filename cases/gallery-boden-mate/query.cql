cql() mate flipcolor fliphorizontal { ka-h8 #(a & anydirection 1 k) >= 2 not [QN] attacks (anydirection 1 k & ~a)
  square x in B & (northeast k | southwest k) { x attacks k
  square z in orthogonal 1 k & ~a square y in B & (northwest z | southeast z) y attacks z } }
