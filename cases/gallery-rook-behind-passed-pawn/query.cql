cql() flipcolor { #[QqBNbn] == 0 r square x in Pa-h4-7 { down x & (R attacks x)
  not up x & p not up left 1 x & p not up right 1 x & p } }
