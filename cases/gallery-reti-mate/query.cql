cql() mate flipcolor fliphorizontal { kc7 square x in Bd8 { x attackedby [RQ] } #(a & anydirection 1 k) >= 3 }
