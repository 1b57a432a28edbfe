cql() check
%%
cql(variations) check
%%
cql(variations matchstring "mate") mate check
