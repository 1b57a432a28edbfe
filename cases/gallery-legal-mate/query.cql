cql() mate flipcolor { [NB] attacks k find <-- { move from b to d1 capture Qd1 parent move from N } }
