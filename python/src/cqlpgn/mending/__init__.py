"""Games that the reader refuses are mended at the byte that it names, and only where it then comes further.

`classes` is the table of what is mended; `languages` and `moves` have other spellings of a move, `signs` of all else; `asking` asks
pgnjson; `text` is a text with its changes; `game` mends the games of one piece of an archive, and `archive` all of an archive.
"""
