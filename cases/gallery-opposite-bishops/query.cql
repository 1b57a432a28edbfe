cql() #B == 1 #b == 1 #[QRNqrn] == 0 [Pp] {light B dark b} or {dark B light b}
