cql() line --> ({check btm} --> wtm){2,40}
