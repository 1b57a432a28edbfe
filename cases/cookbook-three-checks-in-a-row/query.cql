cql() flipcolor line --> { btm check } --> wtm --> { btm check } --> wtm --> { btm check }
