cql() mate sort min "moves" movenumber
