cql() mate rotate90 flipcolor { ka-h8 left 1 k & a right 1 k & a square x in [QR] & down k { x attacks k } }
