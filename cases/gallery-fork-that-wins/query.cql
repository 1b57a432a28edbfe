cql() flipcolor { btm square x in N { move to x #([kqr] attackedby x) >= 2 child child move from x capture [qr] } }
