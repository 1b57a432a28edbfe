cql() flipcolor fliphorizontal { #[QRNqrbn] == 0 #B == 1 light B Ph2-7 #P == #Ph2-7 kf-h7-8 }
