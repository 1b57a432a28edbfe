cql(variations) move promote R or stalemate
