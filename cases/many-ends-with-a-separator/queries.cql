cql() mate
%%
cql() check
%%
