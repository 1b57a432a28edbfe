cql() flipcolor { #P == #p #Pa-c1-8 == #pa-c1-8 + 1 #pe-h1-8 == #Pe-h1-8 + 1 #[Pp]d1-8 == 0 }
