cql() flipcolor { #[QRNqrb] == 0 #B == 2 #n == 1 }
