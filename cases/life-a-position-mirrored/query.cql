cql() flipcolor fliphorizontal { ra8 nb8 bc8 ke8 ng8 rh8 pa7 pb7 pc7 pd7 pf7 pg7 ph7 bc5 pe5 Pe4 qh4 Nc3 Nf3 Pa2 Pb2 Pc2 Pd2 Pf2 Pg2 Ph2 Ra1 Bc1 Qd1 Ke1 Bf1 Rh1 #(A | a) == 32 }
