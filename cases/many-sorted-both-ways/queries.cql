cql() terminal sort "men" #[Aa]
%%
cql() terminal sort min "men" #[Aa]
%%
cql() terminal
