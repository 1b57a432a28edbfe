cql() flipcolor { btm check square x in [RBQ] { move to x x attacks k square y in [qrbn] { between(x y) & k not between(k y) & ~_
  child { move from k child move from x capture y } } } }
