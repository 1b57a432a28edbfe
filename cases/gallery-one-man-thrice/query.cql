cql() flipcolor { btm movenumber <= 10 square x in [QRBN] { move to x
  parent { parent { square y in [QRBN] { move to y child child move from y to x
  parent { parent { square z in [QRBN] { move to z child child move from z to y } } } } } } } }
