cql(matchstring "a mark that is longer than the line that it stands in, which is of seventy-nine bytes, as the standard asks") check
