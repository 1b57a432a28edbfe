cql() #R == 1 #r == 1 #[QBNqbn] == 0 #P == 4 #p == 3 #[Pp]a-d1-8 == 0 not parent { #R == 1 #r == 1 #[QBNqbn] == 0 #P == 4 #p == 3 #[Pp]a-d1-8 == 0 }
