cql() flipcolor { btm square x in [qrbn] { square y in [RBQ] { y attacks x between(y k) & x not between(x k) & ~_ not between(x k) & y }
  child child move capture x } }
