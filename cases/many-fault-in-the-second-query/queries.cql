cql() check
%%
cql() echo
%%
cql() !
