cql() flipcolor { movenumber <= 12 btm move from Ke1 not move from Ke1 to [c1,g1] Q q R[a1,h1] }
