cql() mate flipcolor fliphorizontal { k[g8,h8] Qg7 P[f6,h6] }
