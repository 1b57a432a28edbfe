cql() stalemate
