cql() (line <-- check <-- wtm <-- check) == 3
