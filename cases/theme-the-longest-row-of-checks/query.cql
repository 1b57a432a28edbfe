cql() sort "checks" flipcolor line --> {btm check} --> (wtm --> {btm check})+
