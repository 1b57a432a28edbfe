cql() mate flipcolor { #Ra-h7 == 2 Ra-h7 attacks ka-h8 }
