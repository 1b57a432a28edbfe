cql() mate flipcolor fliphorizontal { square x in B & (northeast k | southwest k) { x attacks k
  square z in orthogonal 1 k & ~a square y in B & (northeast z | southwest z) y attacks z } not [RQ] attacks (anydirection 1 k & ~a) }
