cql() mate flip flipcolor { kh8 Nf6 R[g8,h7] }
