cql() mate
%%
cql() mate
%%
cql() mate
%%
cql() mate
%%
cql() mate
%%
cql() mate
%%
cql() mate
%%
cql() mate
%%
cql() mate
%%
cql() mate
%%
cql() mate
%%
cql() mate
%%
cql() mate
%%
cql() mate
%%
cql() mate
%%
cql() mate
%%
cql() mate
