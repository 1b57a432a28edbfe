cql() flip { Ka1 wtm } sort "men" #A
