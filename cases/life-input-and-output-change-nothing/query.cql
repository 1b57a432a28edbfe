cql(input games.pgn output "found it.pgn" matchstring "a" matchstring "b") mate
