"""Chess problems with their solutions as text, and the games in PGN with variations that they become.

Each module knows those above it, not those below:

1. `faults`: why a problem can't be written, as exceptions. `board`: positions and legal moves; the one board of this package.
2. `diagram`: the men of a record and what twins change. `tokens`: the words of a solution.
3. `tree`: moves and variations. `meaning`: which legal moves a written one stands for. `solution`: a text becomes a tree.
4. `records` and `popeye`: what stands in a file. `convert`: a record becomes trees with tags. `writing`: those become PGN.
"""
