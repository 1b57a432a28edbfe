cql() #[Qq] >= 3
