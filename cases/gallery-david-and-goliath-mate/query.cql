cql() mate flipcolor { P attacks k }
